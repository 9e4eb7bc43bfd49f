C zeros for as many elements as are read, and a value from a subroutine
      program demo
      integer a(100)
      common /size/ n
      read *,n
      if (n.gt.100) n=100
      do 10 i=1,n
10    a(i)=0
      call scale(a,k)
      print *,k
      end
      subroutine scale(a,l)
      common /size/ n
      integer a(n)
      l=2*n-1
      a(1)=l
      end
