C two DOs that end at one statement; an inner DO that a jump leaves
      DO 10 I=1,2
      DO 10 J=1,2
      K=I
10    N=K
      I=2
      DO 20 I=1,2
      DO J=1,3
      IF (J.EQ.I) GO TO 20
      END DO
20    CONTINUE
      END
