C what is wrong with a statement comes before the structure of earlier
C lines
      END IF
      I=+
      END
