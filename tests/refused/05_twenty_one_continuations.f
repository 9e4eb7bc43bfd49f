C of 21 continuation lines it is the 20th that is refused; a comment
C counts as none
      I=

     &0
     &0
     &0
     &0
     &0
     &0
     &0
     &0
     &0
     &0
     &0
     &0
     &0
     &0
     &0
     &0
     &0
     &0
     &0
     &0
     &0
      END
