C a COMMON block that is shorter in a subroutine
      COMMON /B/ I,J(3)
      I=1
      CALL S
      PRINT *,I
      END
      SUBROUTINE S
      COMMON /B/ I(2)
      I(1)=2
      END
