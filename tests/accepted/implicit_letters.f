C single letters and ranges in IMPLICIT
      IMPLICIT INTEGER (A-A , C),LOGICAL(Z)
      A=C
      Z=.TRUE.
      END
