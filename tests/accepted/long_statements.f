C statements that go past column 72: they are cut at 66 characters, also
C in a constant
      PRINT *,'a long text that goes past the column seventy-two and on,
     & with blanks   inside',I,'''',''
      PRINT *,I+0*J,I+1*J,I+2*J,I+3*J,I+4*J,I+5*J,I+6*J,I+7*J,I+8*J,I+9*
     &J,I+10*J,I+11*J,I+12*J,I+13*J,I+14*J,I+15*J,I+16*J,I+17*J,I+18*J,I
     &+19*J,I+20*J,I+21*J,I+22*J,I+23*J,I+24*J,I+25*J,I+26*J,I+27*J,I+28
     &*J,I+29*J
      I=12+12+12+12+12+12+12+12+12+12+12+12+12+12+12+12+12+12+12+12+12+1
      END
