C a result of another type than the reference has, by the title of the function
      I=NF(1)
      END
      LOGICAL FUNCTION NF(K)
      NF=K.EQ.1
      END
