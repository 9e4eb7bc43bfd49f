C a constant in COMMON
      PARAMETER (N=1)
      COMMON N
      END
