C a loop that writes even elements and reads odd ones
      INTEGER A(10)
      DATA A/10*0/
      DO I=1,4
      A(2*I)=A(2*I+1)+1
      END DO
      END
