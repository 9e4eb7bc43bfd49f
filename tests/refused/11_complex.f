C COMPLEX is outside the profile
      COMPLEX Z
      END
