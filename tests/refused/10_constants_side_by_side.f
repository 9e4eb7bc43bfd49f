C two constants side by side
      I=1.TRUE.
      END
