C zeros before a number, a sign at the beginning, and PRINT without
C items
      I=-007+J-2*K
      PRINT*
      END
