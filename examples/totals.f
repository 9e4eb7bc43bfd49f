C totals of the twelve months: with --reductions the first two loops are parallel
      PROGRAM TOTALS
      INTEGER LEVEL(12),SOFAR(12)
      LOGICAL CALM
      DATA LEVEL/31,28,33,35,40,42,47,45,41,38,34,30/
      KSUM=0
      KTOP=0
      KLOW=1000
      NHIGH=0
      DO 10 I=1,12
      KSUM=KSUM+LEVEL(I)
      KTOP=MAX(KTOP,LEVEL(I))
      KLOW=MIN(KLOW,LEVEL(I))
      IF (LEVEL(I).GT.40) NHIGH=NHIGH+1
   10 CONTINUE
      CALM=.TRUE.
      DO 20 I=2,12
      K=ABS(LEVEL(I)-LEVEL(I-1))
   20 CALM=CALM.AND.K.LE.6
      K=0
      DO 30 I=1,12
      K=K+LEVEL(I)
   30 SOFAR(I)=K
      PRINT *,KSUM/12,KTOP,KLOW,NHIGH,CALM
      PRINT *,SOFAR(6),SOFAR(12)
      END
