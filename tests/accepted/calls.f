C CALLs before and after their subroutine, of modules that call others,
C without parentheses, and with each form of an argument
      INTEGER A(2)
      LOGICAL L(2),M
      CALL S
      CALL S()
      CALL T(A,I)
      CALL T(A(2),2*I+1)
      CALL T(A,A(1))
      CALL T(A,(I))
      CALL V(L,M)
      CALL V(L(1),.NOT.L(2))
      CALL V(L,I.EQ.1)
      END
      SUBROUTINE T(J,K)
      INTEGER J(*)
      CALL S
      J(1)=K
      END
      SUBROUTINE S()
      END
      SUBROUTINE V(J,K)
      LOGICAL J(2),K
      K=.NOT.J(1)
      END
