C the earliest line of the first module with a fault
      I=1
      X=J(1)
      Y=2
      END
