C two types of one name
      INTEGER A
      LOGICAL B,A
      END
