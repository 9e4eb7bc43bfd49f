C a dummy argument that stands twice
      SUBROUTINE S(I,I)
      END
      I=1
      END
