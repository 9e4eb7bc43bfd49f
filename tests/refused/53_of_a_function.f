C a CALL of an intrinsic function
      I=MOD(5,3)
      CALL MOD(5,3)
      END
