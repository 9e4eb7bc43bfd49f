C a unit that a dummy and COMMON reach is read, and then written: fault 6
      PROGRAM P
      COMMON /B/ I
      I=1
      CALL S(I)
      END
      SUBROUTINE S(N)
      COMMON /B/ J
      PRINT *,N,J
      J=2
      END
