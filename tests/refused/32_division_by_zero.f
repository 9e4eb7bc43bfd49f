C a bound that divides by zero
      PARAMETER (N=2)
      INTEGER A(N/(N-2))
      END
