C names that begin right after a keyword or a label, as blanks count for
C nothing
      IMPLICIT INTEGER(A-Z)
      DO 1 E5=1,5
1     I=E5
      DO2,K=5,1,-2
2     CONTINUE
      IF(K.EQ.1)THEN=5
      INTEGERX=4
      ENDIFX=1
      END
