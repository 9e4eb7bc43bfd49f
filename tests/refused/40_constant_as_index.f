C a constant as the variable of a DO
      PARAMETER (N=1)
      DO N=1,2
      END DO
      END
