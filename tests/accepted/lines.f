C blanks count for nothing outside character constants, case neither,
C nor columns past 72
      p r o g r a m  l i n e s
      i n t = 1                                                         +X
  1 0 print *, 'It''s  a b', i n t , - 2 * k                            µ	
                                                                        a comment
      go to10
      E N d
