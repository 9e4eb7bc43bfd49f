C a unit of a block that only a module further down declares, through a dummy: fault 6
      PROGRAM P
      COMMON /B/ I
      I=1
      CALL A(I)
      END
      SUBROUTINE A(N)
      CALL C
      PRINT *,N
      N=3
      END
      SUBROUTINE C
      COMMON /B/ J
      J=J+1
      END
