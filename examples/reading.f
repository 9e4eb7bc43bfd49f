      program sort
C two numbers that are read, in order
      read *,i,j
      if (i.gt.j) then
      k=i
      i=j
      j=k
      else if (i.eq.j) then
      print *,'equal'
      else
      k=j
      end if
C here I<=J, whichever arm was taken
      print *,i,j,k
      if (j.ge.0.and.i.lt.0) print *,'zero lies between'
      end
