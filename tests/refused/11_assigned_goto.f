C the assigned GO TO is outside the profile
      GO TO I
      END
