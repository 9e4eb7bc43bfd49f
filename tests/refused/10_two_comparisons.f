C a comparison of a comparison
      IF (I.LT.J.LT.K) I=1
      END
