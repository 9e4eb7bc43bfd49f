C the label of END stands before
10    I=1
10    END
