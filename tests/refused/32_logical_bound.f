C a LOGICAL as a bound
      INTEGER A(.TRUE.)
      END
