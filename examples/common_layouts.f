      program layout
C SIZES is two variables and an array here, and one array in the
C subroutine: its units are not tracked; that of LIMIT is
      common /sizes/ n,m,i(3)
      common /limit/ last
      n=1
      last=10
      call reset
      n=last-1
      print *,n,m,last
      end
      subroutine reset
      common /sizes/ k(5)
      common /limit/ l
      do 10 j=1,5
      k(j)=0
   10 continue
      l=l+j
      end
