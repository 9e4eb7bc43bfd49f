C DATA of variables, elements and arrays, with repeats, signs and commas
C between lists; tracked ones begin with their value
      INTEGER A,B,C,D(2),G(4)
      LOGICAL L,M(3)
      DATA A/1/,B,C/2*3/
      DATA D(1),D(2)/-1,+2/ L/.TRUE./
      DATA N/007/ K/0*1,5/,M/.TRUE.,2*.FALSE./,G/4*0/
      N=N+B
      PRINT *,A,B,C,D(1),N,K,G(4)
      END
