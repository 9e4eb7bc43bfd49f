C 1. is real also before a comparison
      IF (1..EQ.2) I=1
      END
