C scalars that are named as functions are
      PROGRAM P
      INTEGER MAX
      LOGICAL MIN
      PRINT *,MAX(1,2),MIN(3,MAX(2,9)),MOD(-7,3),IABS(-4)
      END
