C SAVE of the blank block
      SAVE //
      END
