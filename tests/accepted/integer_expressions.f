C the operators of INTEGERs: which binds first, which from the right,
C signs, parentheses, functions, numbers and names
      IMPLICIT INTEGER(A-Z)
      INTEGER A(9,9),B(9)
      I=J+K*M
      I=J-K-M
      I=J/K*M
      I=J**K**M
      I=-J**2+K
      I=-J+K
      I=+J
      I=(J-K)-(M)
      I=J+K-(-3)
      I=2*(-3)
      I=-(J)
      I=-J**2**K+(3-4)/5*(6)
      I=((J))
      I=A(I,J+1)*MAX(1,2,3)
      I=A(B(1),B(B(2)))
      I=MOD(I,3)+MIN(I,J,K)-ABS(K)+IABS(-K)
      I=007+00012
      I=2147483647
      I=-2147483647-1
      I_1=1
      ibcdefghijklmnopqrstuvwxyz12345=2
      I=2*J+I_1*IBCDEFGHIJKLMNOPQRSTUVWXYZ12345
      END
