      program calls
C how many multiples of 3 there are up to 100, one CALL for each number
      n=0
      do 10 i=1,100
      call count(i,n)
   10 continue
      print *,n
      end
      subroutine count(k,number)
C adds 1 to NUMBER where 3 divides K
      if (mod(k,3).eq.0) then
      number=number+1
      end if
      end
