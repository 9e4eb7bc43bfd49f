C a name that begins with _
      I=_J
      END
