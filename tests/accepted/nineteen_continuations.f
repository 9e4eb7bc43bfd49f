C a statement with 19 continuation lines
      I=

     &0
     &0
     &0
     &0
     &0
     &0
     &0
     &0
     &0
     &0
     &0
     &0
     &0
     &0
     &0
     &0
     &0
     &0
     &0
      PRINT *,I
      END
