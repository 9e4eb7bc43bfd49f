C EQUIVALENCE of variables, elements and lists of three; such variables
C are not tracked
      INTEGER A(3),B(3),C,D,E,F
      EQUIVALENCE (A(1),B(2)),(C,D)
      EQUIVALENCE (E,F,A(2))
      C=1
      I=4
      D=2
      PRINT *,C,E,I
      END
