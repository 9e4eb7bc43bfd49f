C names of functions: with types by IMPLICIT and by type statements, names like
C keywords, and an array of the name of a function in another module
      PROGRAM P
      IMPLICIT INTEGER (A-K),LOGICAL(L)
      LOGICAL IS
      INTEGER L3
      L=LF(2)
      I=F(2)
      I=DO10I(2)
      I=IF2(4)
      J=END()
      L=IS(L)
      K=L3(I)
      CALL S
      END
      LOGICAL FUNCTION LF(K)
      LF=K.EQ.2
      END
      FUNCTION F(K)
      INTEGER F
      F=K
      END
      INTEGER FUNCTION DO10I(K)
      DO10I=K
      END
      FUNCTION IF2(K)
      IF2=K
      END
      INTEGERFUNCTIONEND()
      END=1
      END
      FUNCTION IS(L)
      LOGICAL IS,L
      IS=L
      END
      FUNCTION L3(K)
      L3=K
      END
      SUBROUTINE S
      INTEGER F(2)
      F(1)=1
      I=F(1)
      END
