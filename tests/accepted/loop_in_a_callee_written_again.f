C the text that is written of a DO in a subroutine, once more: the
C claims in it are dropped, and made anew
      PROGRAM P
      INTEGER B(100)
      DATA B /100*0/
C> P {}
C> READ B {1<=PHI1, PHI1<=100} EXACT
C> WRITE B {1<=PHI1, PHI1<=100} EXACT
C> IN B {1<=PHI1, PHI1<=100} EXACT
      CALL INC(B,100)
      END
C> P {N==100}
C> READ A {1<=PHI1, PHI1<=N} EXACT
C> READ N {} EXACT
C> WRITE A {1<=PHI1, PHI1<=N} EXACT
C> IN A {1<=PHI1, PHI1<=N} EXACT
C> IN N {} EXACT
      SUBROUTINE INC(A,N)
      INTEGER A(N)
C> P {N==100}
C> T I {1<=I', N+1<=I'}
C> READ A {1<=PHI1, PHI1<=N} EXACT
C> READ N {} EXACT
C> READ I {1<=N} EXACT
C> WRITE A {1<=PHI1, PHI1<=N} EXACT
C> WRITE I {} EXACT
C> IN A {1<=PHI1, PHI1<=N} EXACT
C> IN N {} EXACT
C$OMP PARALLEL DO
      DO I = 1,N
C> P {N==100, 1<=I, I<=100}
      A(I) = A(I)+1
C> P {N==100, 1<=I, I<=100}
10    CONTINUE
      END DO
      END
