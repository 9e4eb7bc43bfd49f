C values, and variables that shift
      I=2*J+1
      J=J-I
      K=3
      I=I+K
      J=-J
      PRINT *,J
      END
