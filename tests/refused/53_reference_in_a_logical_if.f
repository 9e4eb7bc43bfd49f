C a reference in a logical IF of what is no module
      IF (J.EQ.1) J=I(2)
      END
