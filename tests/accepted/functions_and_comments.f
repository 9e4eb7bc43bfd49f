C comments before each part of functions and DO WHILEs
* of the program
      PROGRAM P
C of the reference
      I=NF(1)
C of the logical IF
      IF (I.EQ.2) I=NF(2)
C of the DO WHILE
      DO WHILE (I.LT.9)
C of its body
      I=I+1
C of its end
      END DO
C of the labelled one
      DO 10 WHILE (I.GT.0)
C of a reference in it
      J=NF(I)
C of its last statement
10    I=I-2
C of END
      END
C of the function
      FUNCTION NF(K)
C of its body
      NF=K+1
C of its END
      END
C after all
