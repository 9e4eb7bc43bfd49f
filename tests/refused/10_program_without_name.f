C PROGRAM without a name
      PROGRAM
      END
