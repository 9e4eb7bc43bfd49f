C character constants that go on in the next line: a short line counts
C as full to column 72
      PRINT *,'aaaaaaaaaaaaaaaaaaaaaaaaaaaaaaaaaaaaaaaaaaaaaaaaaaaaaaaa past
     & b'' c'
      PRINT *,'x
     &y'
      PRINT *,'x
     &	y','	'
      END
