C DO WHILEs count as blocks
      DO WHILE (I.EQ.1)
      DO WHILE (I.EQ.1)
      DO WHILE (I.EQ.1)
      DO WHILE (I.EQ.1)
      DO WHILE (I.EQ.1)
      DO WHILE (I.EQ.1)
      DO WHILE (I.EQ.1)
      DO WHILE (I.EQ.1)
      DO WHILE (I.EQ.1)
      DO WHILE (I.EQ.1)
      DO WHILE (I.EQ.1)
      DO WHILE (I.EQ.1)
      DO WHILE (I.EQ.1)
      DO WHILE (I.EQ.1)
      DO WHILE (I.EQ.1)
      DO WHILE (I.EQ.1)
      DO WHILE (I.EQ.1)
      DO WHILE (I.EQ.1)
      DO WHILE (I.EQ.1)
      DO WHILE (I.EQ.1)
      DO WHILE (I.EQ.1)
      DO WHILE (I.EQ.1)
      DO WHILE (I.EQ.1)
      DO WHILE (I.EQ.1)
      DO WHILE (I.EQ.1)
      DO WHILE (I.EQ.1)
      DO WHILE (I.EQ.1)
      DO WHILE (I.EQ.1)
      DO WHILE (I.EQ.1)
      DO WHILE (I.EQ.1)
      DO WHILE (I.EQ.1)
      DO WHILE (I.EQ.1)
      DO WHILE (I.EQ.1)
      DO WHILE (I.EQ.1)
      DO WHILE (I.EQ.1)
      DO WHILE (I.EQ.1)
      DO WHILE (I.EQ.1)
      DO WHILE (I.EQ.1)
      DO WHILE (I.EQ.1)
      DO WHILE (I.EQ.1)
      DO WHILE (I.EQ.1)
      DO WHILE (I.EQ.1)
      DO WHILE (I.EQ.1)
      DO WHILE (I.EQ.1)
      DO WHILE (I.EQ.1)
      DO WHILE (I.EQ.1)
      DO WHILE (I.EQ.1)
      DO WHILE (I.EQ.1)
      DO WHILE (I.EQ.1)
      DO WHILE (I.EQ.1)
      DO WHILE (I.EQ.1)
      DO WHILE (I.EQ.1)
      DO WHILE (I.EQ.1)
      DO WHILE (I.EQ.1)
      DO WHILE (I.EQ.1)
      DO WHILE (I.EQ.1)
      DO WHILE (I.EQ.1)
      DO WHILE (I.EQ.1)
      DO WHILE (I.EQ.1)
      DO WHILE (I.EQ.1)
      DO WHILE (I.EQ.1)
      DO WHILE (I.EQ.1)
      DO WHILE (I.EQ.1)
      DO WHILE (I.EQ.1)
      DO WHILE (I.EQ.1)
      END DO
      END DO
      END DO
      END DO
      END DO
      END DO
      END DO
      END DO
      END DO
      END DO
      END DO
      END DO
      END DO
      END DO
      END DO
      END DO
      END DO
      END DO
      END DO
      END DO
      END DO
      END DO
      END DO
      END DO
      END DO
      END DO
      END DO
      END DO
      END DO
      END DO
      END DO
      END DO
      END DO
      END DO
      END DO
      END DO
      END DO
      END DO
      END DO
      END DO
      END DO
      END DO
      END DO
      END DO
      END DO
      END DO
      END DO
      END DO
      END DO
      END DO
      END DO
      END DO
      END DO
      END DO
      END DO
      END DO
      END DO
      END DO
      END DO
      END DO
      END DO
      END DO
      END DO
      END DO
      END DO
      END
