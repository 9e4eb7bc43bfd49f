C the relief of an island: eight modules, and loops of each kind
      PROGRAM RELIEF
      INTEGER H(40,30),G(40,30)
      COMMON /SIZE/ M,N
      M=40
      N=30
      CALL HILLS(H)
      DO 10 K=1,20
      CALL SMOOTH(H,G)
      CALL COPY(G,H)
   10 CONTINUE
      CALL COAST(H)
      CALL REPORT(H)
      END
C the first heights
      SUBROUTINE HILLS(H)
      INTEGER H(40,*)
      COMMON /SIZE/ M,N
      DO 10 J=1,N
      DO 10 I=1,M
   10 H(I,J)=MOD(37*I*I+91*J*J,1000)
      CALL EDGES(H)
      END
C the edges are sea
      SUBROUTINE EDGES(H)
      INTEGER H(40,*)
      COMMON /SIZE/ M,N
      DO 10 I=1,M
      H(I,1)=0
   10 H(I,N)=0
      DO 20 J=1,N
      H(1,J)=0
   20 H(M,J)=0
      END
C what wind and rain leave of the heights H in G, a strip after another
      SUBROUTINE SMOOTH(H,G)
      INTEGER H(40,*),G(40,*)
      COMMON /SIZE/ M,N
      DO 10 J=2,N-1
   10 CALL STRIP(H(1,J-1),H(1,J),H(1,J+1),G(1,J),M)
      CALL EDGES(G)
      END
C one strip: each height is the mean of itself and its four neighbours
      SUBROUTINE STRIP(A,B,C,D,M)
      INTEGER A(M),B(M),C(M),D(M),SUM
      DO 10 I=2,M-1
      SUM=A(I)+B(I-1)+B(I)+B(I+1)+C(I)
   10 D(I)=SUM/5
      END
C the one field becomes the other
      SUBROUTINE COPY(FROM,TO)
      INTEGER FROM(40,*),TO(40,*)
      COMMON /SIZE/ M,N
      DO 10 J=1,N
      DO 10 I=1,M
   10 TO(I,J)=FROM(I,J)
      END
C the first land of each strip, and the sum of its heights, in /SHORE/
      SUBROUTINE COAST(H)
      INTEGER H(40,*)
      COMMON /SIZE/ M,N
      COMMON /SHORE/ LAND(30),LEVEL
      LEVEL=200
      DO 20 J=1,N
      LAND(J)=0
      DO 10 I=1,M
      IF (H(I,J).GT.LEVEL) GO TO 20
   10 LAND(J)=LAND(J)+1
   20 CONTINUE
      END
C prints where the land begins, and all of it
      SUBROUTINE REPORT(H)
      INTEGER H(40,*),TOTAL
      COMMON /SIZE/ M,N
      COMMON /SHORE/ LAND(30),LEVEL
      TOTAL=0
      DO 10 J=1,N
      DO 10 I=1,M
   10 IF (H(I,J).GT.LEVEL) TOTAL=TOTAL+1
      DO 20 J=1,N,10
   20 PRINT *,'STRIP',J,': LAND FROM',LAND(J)+1
      PRINT *,TOTAL,' PLACES ARE LAND'
      END
