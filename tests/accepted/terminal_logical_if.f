C a DO that ends at a logical IF, one that goes to its own label, and
C one that ends at READ, CALL and PRINT
      DO 10 I=1,2
10    IF (I.EQ.1) GO TO 20
20    CONTINUE
      DO 30 I=1,2
30    IF (I.EQ.1) GO TO 30
      DO 40 I=1,2
40    READ *,J
      DO 50 I=1,2
50    CALL S
      DO 60 I=1,2
60    PRINT *,I
      END
      SUBROUTINE S
      END
