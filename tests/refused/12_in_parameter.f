C a real constant in PARAMETER
      PARAMETER (N=1.5)
      END
