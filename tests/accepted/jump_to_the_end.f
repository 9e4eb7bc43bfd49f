C GO TO the label of END DO, from within, and to that of END
      DO I=1,2
      GO TO 30
30    END DO
      GO TO 40
40    END
