;redcode-94
;name One shot
;author koth
;assert CORESIZE == 8000
;
; A scanner that shoots once: where it first finds something, it clears from there on.

     ORG lp
gp   DAT 0, 2000
lp   SUB.X #-9, gp
     SNE *gp, @gp
     SUB.X #-9, gp
     JMZ.F lp, @gp
     SPL #0, }gp
     MOV *cs, >gp
     MOV *cs, >gp
     DJN.F -2, }gp
cs   SPL #1, 12
     DAT <2667, 12
