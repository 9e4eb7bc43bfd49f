C STOP two calls below, RETURN out of an IF
      PROGRAM P
      CALL A(1)
      CALL A(2)
      PRINT *,0
      END
      SUBROUTINE A(N)
      IF (N.EQ.1) THEN
      PRINT *,1
      RETURN
      ELSE IF (N.EQ.2) THEN
      CALL B
      END IF
      PRINT *,2
      END
      SUBROUTINE B
      PRINT *,3
      STOP
      END
