C the program that the command lines of this folder name p.f
      I=1
      END
