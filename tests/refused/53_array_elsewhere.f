C a reference of an array of another module
      I=NA(1)
      END
      SUBROUTINE S
      INTEGER NA(3)
      NA(1)=1
      END
