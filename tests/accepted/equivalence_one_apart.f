C two arrays that EQUIVALENCE lays one unit apart
      INTEGER A(10),B(11)
      EQUIVALENCE (A(1),B(2))
      B(1)=0
      DO I=1,10
      A(I)=B(I)
      END DO
      END
