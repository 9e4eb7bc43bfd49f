C COMMON laid out otherwise in two modules
      PROGRAM P
      COMMON /B/ I,J(2),K
      I=1
      J(1)=2
      J(2)=3
      K=4
      CALL S
      PRINT *,I,J(1),J(2),K
      END
      SUBROUTINE S
      COMMON /B/ M(3),N
      M(2)=N
      N=M(3)+M(1)
      END
