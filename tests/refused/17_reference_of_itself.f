C a function that refers to itself
      I=NEXT(1)
      END
      FUNCTION NEXT(K)
      NEXT=NEXT(K)
      END
