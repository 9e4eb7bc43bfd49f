C a directive longer than a line is cut at column 66, also inside a name
      INTEGER A(10)
      LOGICAL L1,L2
      DATA A/10*3/
      KOUNTER1=0
      KOUNTER2=0
      KOUNTER3=0
      MAXIMUM1=0
      MINIMUM1=9
      L1=.TRUE.
      L2=.FALSE.
      DO I=1,10
      J1=A(I)
      J2=J1+1
      KOUNTER1=KOUNTER1+J1
      KOUNTER2=KOUNTER2+J2
      KOUNTER3=J1+KOUNTER3
      MAXIMUM1=MAX(MAXIMUM1,J2)
      MINIMUM1=MIN(MINIMUM1,J2)
      L1=L1.AND.J1.GT.0
      L2=L2.OR.J2.EQ.7
      END DO
      PRINT *,KOUNTER1,KOUNTER2,KOUNTER3,MAXIMUM1,MINIMUM1,L1,L2
      END
