C DATA, EQUIVALENCE and PARAMETER
      PROGRAM P
      INTEGER A(3),B(2)
      LOGICAL L
      PARAMETER (N=3)
      EQUIVALENCE (A(2),B(1))
      DATA A/2*1,7/,L/.TRUE./
      B(1)=N
      PRINT *,A(1),A(2),B(2),L
      END
