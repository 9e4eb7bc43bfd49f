C comments of each kind stay before their statement; claims and
C directives are made anew, so those of the text are dropped
C first
      PROGRAM P
* second
      INTEGER A(10)

C$OMP PARALLEL DO
*$OMP X
C> P {}
c>kept, since its c is small
      DO 10 I=1,10
! third
     &
10    A(I)=I
C> not kept
c fourth
 	 
      END
C last
