C comparisons and the operators of LOGICALs: which binds first
      LOGICAL L,M,V(3)
      L=1.EQ.2
      L=I.EQ.-1
      L=I+1.GE.2*J.NEQV..TRUE.
      L=(1.NE.2).OR.(I.LE.J)
      L=.NOT.L.AND.M.OR..TRUE.
      L=L.EQV.M.NEQV..FALSE..OR.M
      L=.NOT.(I.EQ.1).AND.J.LT.2.OR.L.EQV.M
      L=.NOT.I.GT.J.AND..NOT.M
      L=V(1).AND.(M.OR.V(2)).AND.M
      L=.NOT.(.NOT.L)
      L=L.OR.M.OR.V(1)
      END
