C what makes a value unknown: a product of variables, a quotient, a
C function, an element, READ
      INTEGER A(3)
      I=2
      J=I
      L=I*J
      K=L/2
      K=K+1
      J=MOD(I,2)
      L=A(I)
      READ *,A(I),I
      PRINT *,J
      END
