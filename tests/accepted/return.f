C RETURN in a subroutine: what follows it is never reached
      SUBROUTINE S(I)
      IF (I.EQ.1) RETURN
      I=2
      RETURN
      I=3
      END
      I=1
      CALL S(I)
      PRINT *,I
      END
