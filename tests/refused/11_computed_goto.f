C the computed GO TO is outside the profile
      GO TO (1,2),I
      END
