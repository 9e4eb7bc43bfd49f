C FORMAT is outside the profile
      FORMAT(I5)
      END
