C a continuation line with nothing to continue
     &I=1
      END
