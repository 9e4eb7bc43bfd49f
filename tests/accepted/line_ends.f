C lines that end with CRs, a CR inside a comment, and a last line
C without a line end
      I=1
C ab
      PRINT *,I
      END