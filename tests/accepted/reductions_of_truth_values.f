C .AND. and .OR., in the forms that are recognised, and in others
      INTEGER A(10)
      LOGICAL ALL,ANY,M
      DATA A/10*3/
      M=A(1).GT.2
      ALL=.TRUE.
      ANY=.FALSE.
      DO I=1,10
      ALL=ALL.AND.A(I).GT.0.AND.A(I).LT.9
      END DO
      DO I=1,10
      ANY=A(I).EQ.7.OR.ANY
      END DO
C ALL inside a chain
      DO I=1,10
      ALL=A(I).GT.0.AND.ALL.AND.A(I).LT.9
      END DO
C both operators
      DO I=1,10
      ALL=ALL.AND.M.OR.A(I).GT.0
      END DO
      DO I=1,10
      ALL=ALL.AND.(M.OR.A(I).GT.0)
      END DO
C in parentheses, twice, and with .EQV.
      DO I=1,10
      ALL=(ALL).AND.A(I).GT.0
      END DO
      DO I=1,10
      ALL=ALL.AND.M.AND.ALL
      END DO
      DO I=1,10
      ALL=ALL.EQV.A(I).GT.0
      END DO
      PRINT *,ALL,ANY
      END
