C what forgets a variable, and a fact that outlives it
      I=3
      J=I
      K=J-2*L
      I=2*I-I
      L=2*I+1
      J=K-K
      PRINT *,J
      END
