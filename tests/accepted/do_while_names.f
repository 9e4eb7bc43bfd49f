C statements that look like DO WHILE and are not, and DO WHILE in each spelling
      IMPLICIT INTEGER (A-Z)
      INTEGER DOWHILE(5),DO10WHILE(4)
      I=2
      DOWHILE(I)=3
      DO10WHILE(2)=1
      DO WHILE ( I ) = 4
      DO 10 WHILE = 1 , 2
      DOWHILE(WHILE)=DO10WHILE(2)
10    CONTINUE
      DO WHILE = 1,2
      END DO
      DO20WHILE=5
      DOWHILE(I.LT.4)
      I=I+1
      ENDDO
      DO30WHILE(I.LT.9)
30    I=I+1
      D O W H I L E (I.LT.10)
      I=I+1
      E N D D O
      DO 40,WHILE(DOWHILE(2).EQ.3.AND.I.LT.12)
40    I=I+1
      do while (i.lt.13)
      i=i+1
      end do
      PRINT *,I,DOWHILE(2)
      END
