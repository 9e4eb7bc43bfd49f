C a loop in a function, which is parallel
      INTEGER A(9)
      I=NF(A)
      PRINT *,A(3),I
      END
      INTEGER FUNCTION NF(A)
      INTEGER A(9)
      DO I=1,9
      A(I)=I
      END DO
      NF=A(9)
      END
