C equal and opposite rows
      I=J
      J=I
      K=I-J
      J=K
      I=J+0*I
      PRINT *,I
      END
