C no statement begins so
      E
      END
