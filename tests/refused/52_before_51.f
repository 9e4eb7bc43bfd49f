C two modules of one name come before two main programs, also later in
C the text
      PROGRAM P
      END
      PROGRAM Q
      END
      SUBROUTINE P
      END
