C after a block IF holds the convex hull of what holds after its arms
      READ *,I
      IF (I.GE.1) THEN
      J=1
      ELSE
      J=2
      END IF
      PRINT *,J
      END
