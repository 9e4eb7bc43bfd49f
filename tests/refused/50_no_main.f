C a subroutine alone
      SUBROUTINE S
      END
