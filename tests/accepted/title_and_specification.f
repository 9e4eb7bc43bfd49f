C claims stand before the title; without a title before the first
C statement
      SUBROUTINE S(I,J)
      SAVE
      END
      SAVE
      CONTINUE
      END
