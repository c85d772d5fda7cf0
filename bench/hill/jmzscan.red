;redcode-94
;name Zero scanner
;author koth
;assert CORESIZE == 8000
;
; A scanner that looks at every thirteenth cell, lays SPLs where it finds something, and then clears.

     ORG s
st   EQU 13
s    ADD #st, p
p    JMZ.F s, 200
     SLT #20, p
     JMP c
     MOV.AB p, q
q    MOV spb, 0
     MOV spb, @q
     SUB #4, q
     MOV spb, @q
     JMP s
c    SPL #0, <-15
     MOV db, >w
     DJN.F -1, >w
     DAT 0, 0
spb  SPL #0, #0
w    DAT 0, 30
db   DAT <2667, #15
