C a 257th module comes before a name that stands twice
      PROGRAM S3
      END
      END
      SUBROUTINE S0
      END
      SUBROUTINE S1
      END
      SUBROUTINE S2
      END
      SUBROUTINE S3
      END
      SUBROUTINE S4
      END
      SUBROUTINE S5
      END
      SUBROUTINE S6
      END
      SUBROUTINE S0
      END
      SUBROUTINE S1
      END
      SUBROUTINE S2
      END
      SUBROUTINE S3
      END
      SUBROUTINE S4
      END
      SUBROUTINE S5
      END
      SUBROUTINE S6
      END
      SUBROUTINE S0
      END
      SUBROUTINE S1
      END
      SUBROUTINE S2
      END
      SUBROUTINE S3
      END
      SUBROUTINE S4
      END
      SUBROUTINE S5
      END
      SUBROUTINE S6
      END
      SUBROUTINE S0
      END
      SUBROUTINE S1
      END
      SUBROUTINE S2
      END
      SUBROUTINE S3
      END
      SUBROUTINE S4
      END
      SUBROUTINE S5
      END
      SUBROUTINE S6
      END
      SUBROUTINE S0
      END
      SUBROUTINE S1
      END
      SUBROUTINE S2
      END
      SUBROUTINE S3
      END
      SUBROUTINE S4
      END
      SUBROUTINE S5
      END
      SUBROUTINE S6
      END
      SUBROUTINE S0
      END
      SUBROUTINE S1
      END
      SUBROUTINE S2
      END
      SUBROUTINE S3
      END
      SUBROUTINE S4
      END
      SUBROUTINE S5
      END
      SUBROUTINE S6
      END
      SUBROUTINE S0
      END
      SUBROUTINE S1
      END
      SUBROUTINE S2
      END
      SUBROUTINE S3
      END
      SUBROUTINE S4
      END
      SUBROUTINE S5
      END
      SUBROUTINE S6
      END
      SUBROUTINE S0
      END
      SUBROUTINE S1
      END
      SUBROUTINE S2
      END
      SUBROUTINE S3
      END
      SUBROUTINE S4
      END
      SUBROUTINE S5
      END
      SUBROUTINE S6
      END
      SUBROUTINE S0
      END
      SUBROUTINE S1
      END
      SUBROUTINE S2
      END
      SUBROUTINE S3
      END
      SUBROUTINE S4
      END
      SUBROUTINE S5
      END
      SUBROUTINE S6
      END
      SUBROUTINE S0
      END
      SUBROUTINE S1
      END
      SUBROUTINE S2
      END
      SUBROUTINE S3
      END
      SUBROUTINE S4
      END
      SUBROUTINE S5
      END
      SUBROUTINE S6
      END
      SUBROUTINE S0
      END
      SUBROUTINE S1
      END
      SUBROUTINE S2
      END
      SUBROUTINE S3
      END
      SUBROUTINE S4
      END
      SUBROUTINE S5
      END
      SUBROUTINE S6
      END
      SUBROUTINE S0
      END
      SUBROUTINE S1
      END
      SUBROUTINE S2
      END
      SUBROUTINE S3
      END
      SUBROUTINE S4
      END
      SUBROUTINE S5
      END
      SUBROUTINE S6
      END
      SUBROUTINE S0
      END
      SUBROUTINE S1
      END
      SUBROUTINE S2
      END
      SUBROUTINE S3
      END
      SUBROUTINE S4
      END
      SUBROUTINE S5
      END
      SUBROUTINE S6
      END
      SUBROUTINE S0
      END
      SUBROUTINE S1
      END
      SUBROUTINE S2
      END
      SUBROUTINE S3
      END
      SUBROUTINE S4
      END
      SUBROUTINE S5
      END
      SUBROUTINE S6
      END
      SUBROUTINE S0
      END
      SUBROUTINE S1
      END
      SUBROUTINE S2
      END
      SUBROUTINE S3
      END
      SUBROUTINE S4
      END
      SUBROUTINE S5
      END
      SUBROUTINE S6
      END
      SUBROUTINE S0
      END
      SUBROUTINE S1
      END
      SUBROUTINE S2
      END
      SUBROUTINE S3
      END
      SUBROUTINE S4
      END
      SUBROUTINE S5
      END
      SUBROUTINE S6
      END
      SUBROUTINE S0
      END
      SUBROUTINE S1
      END
      SUBROUTINE S2
      END
      SUBROUTINE S3
      END
      SUBROUTINE S4
      END
      SUBROUTINE S5
      END
      SUBROUTINE S6
      END
      SUBROUTINE S0
      END
      SUBROUTINE S1
      END
      SUBROUTINE S2
      END
      SUBROUTINE S3
      END
      SUBROUTINE S4
      END
      SUBROUTINE S5
      END
      SUBROUTINE S6
      END
      SUBROUTINE S0
      END
      SUBROUTINE S1
      END
      SUBROUTINE S2
      END
      SUBROUTINE S3
      END
      SUBROUTINE S4
      END
      SUBROUTINE S5
      END
      SUBROUTINE S6
      END
      SUBROUTINE S0
      END
      SUBROUTINE S1
      END
      SUBROUTINE S2
      END
      SUBROUTINE S3
      END
      SUBROUTINE S4
      END
      SUBROUTINE S5
      END
      SUBROUTINE S6
      END
      SUBROUTINE S0
      END
      SUBROUTINE S1
      END
      SUBROUTINE S2
      END
      SUBROUTINE S3
      END
      SUBROUTINE S4
      END
      SUBROUTINE S5
      END
      SUBROUTINE S6
      END
      SUBROUTINE S0
      END
      SUBROUTINE S1
      END
      SUBROUTINE S2
      END
      SUBROUTINE S3
      END
      SUBROUTINE S4
      END
      SUBROUTINE S5
      END
      SUBROUTINE S6
      END
      SUBROUTINE S0
      END
      SUBROUTINE S1
      END
      SUBROUTINE S2
      END
      SUBROUTINE S3
      END
      SUBROUTINE S4
      END
      SUBROUTINE S5
      END
      SUBROUTINE S6
      END
      SUBROUTINE S0
      END
      SUBROUTINE S1
      END
      SUBROUTINE S2
      END
      SUBROUTINE S3
      END
      SUBROUTINE S4
      END
      SUBROUTINE S5
      END
      SUBROUTINE S6
      END
      SUBROUTINE S0
      END
      SUBROUTINE S1
      END
      SUBROUTINE S2
      END
      SUBROUTINE S3
      END
      SUBROUTINE S4
      END
      SUBROUTINE S5
      END
      SUBROUTINE S6
      END
      SUBROUTINE S0
      END
      SUBROUTINE S1
      END
      SUBROUTINE S2
      END
      SUBROUTINE S3
      END
      SUBROUTINE S4
      END
      SUBROUTINE S5
      END
      SUBROUTINE S6
      END
      SUBROUTINE S0
      END
      SUBROUTINE S1
      END
      SUBROUTINE S2
      END
      SUBROUTINE S3
      END
      SUBROUTINE S4
      END
      SUBROUTINE S5
      END
      SUBROUTINE S6
      END
      SUBROUTINE S0
      END
      SUBROUTINE S1
      END
      SUBROUTINE S2
      END
      SUBROUTINE S3
      END
      SUBROUTINE S4
      END
      SUBROUTINE S5
      END
      SUBROUTINE S6
      END
      SUBROUTINE S0
      END
      SUBROUTINE S1
      END
      SUBROUTINE S2
      END
      SUBROUTINE S3
      END
      SUBROUTINE S4
      END
      SUBROUTINE S5
      END
      SUBROUTINE S6
      END
      SUBROUTINE S0
      END
      SUBROUTINE S1
      END
      SUBROUTINE S2
      END
      SUBROUTINE S3
      END
      SUBROUTINE S4
      END
      SUBROUTINE S5
      END
      SUBROUTINE S6
      END
      SUBROUTINE S0
      END
      SUBROUTINE S1
      END
      SUBROUTINE S2
      END
      SUBROUTINE S3
      END
      SUBROUTINE S4
      END
      SUBROUTINE S5
      END
      SUBROUTINE S6
      END
      SUBROUTINE S0
      END
      SUBROUTINE S1
      END
      SUBROUTINE S2
      END
      SUBROUTINE S3
      END
      SUBROUTINE S4
      END
      SUBROUTINE S5
      END
      SUBROUTINE S6
      END
      SUBROUTINE S0
      END
      SUBROUTINE S1
      END
      SUBROUTINE S2
      END
      SUBROUTINE S3
      END
      SUBROUTINE S4
      END
      SUBROUTINE S5
      END
      SUBROUTINE S6
      END
      SUBROUTINE S0
      END
      SUBROUTINE S1
      END
      SUBROUTINE S2
      END
      SUBROUTINE S3
      END
      SUBROUTINE S4
      END
      SUBROUTINE S5
      END
      SUBROUTINE S6
      END
      SUBROUTINE S0
      END
      SUBROUTINE S1
      END
      SUBROUTINE S2
      END
      SUBROUTINE S3
      END
      SUBROUTINE S4
      END
      SUBROUTINE S5
      END
      SUBROUTINE S6
      END
      SUBROUTINE S0
      END
      SUBROUTINE S1
      END
      SUBROUTINE S2
      END
      SUBROUTINE S3
      END
      SUBROUTINE S4
      END
      SUBROUTINE S5
      END
      SUBROUTINE S6
      END
      SUBROUTINE S0
      END
      SUBROUTINE S1
      END
      SUBROUTINE S2
      END
