      program heat
C one step of a stencil, and the field that it leaves
      integer u(100),v(100)
      do 10 i=1,100
      u(i)=i*i
   10 v(i)=0
      call step(u,v)
      if (v(50).gt.u(50)) print *,'warmer',
     &   v(50)
      end
      subroutine step(a,b)
      integer a(*),b(*)
* the ends stay
      do 20 i=2,99
20    b(i)=(a(i-1)+2*a(i)+a(i+1))/4
      end
