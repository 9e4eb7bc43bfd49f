C there are no reserved words: statements that look like others and are
C assignments
      IMPLICIT INTEGER(A-Z)
      INTEGER IF(3),FORMAT(2)
      IF(I)=3
      DO10I=1
      END=1
      CALL=2
      READ=3
      PRINT=4
      DATA=6
      ELSE=7
      GOTO=8
      REAL=4
      E=1
      STOP=E5
      PARAMETERN=1
      DOWHILE=2
      FORMAT(1)=5
      READ(5,*)I
      I=IF(1)+IF(IF(2))
      END
