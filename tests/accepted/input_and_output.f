C PRINT, WRITE and READ with each unit, with and without items
      INTEGER A(3)
      PRINT *
      PRINT *,I,'A b','it''s','',A(I)
      print*,i
      WRITE(*,*)I,J
      WRITE(6,*) I
      WRITE(*,*)
      WRITE(6,*)
      READ *,I,A(2)
      READ(5,*)I,J
      READ(*,*)I
      READ(*,*)
      READ*
      READ(5,*)
      END
