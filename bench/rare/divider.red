;redcode-94
;name Divider
;author koth
;assert CORESIZE == 8000
;
; It goes by quotients and remainders, and writes where they lead.

     ORG s
s    ADD.F  d, v
     MOD.AB #799, v
     MOD.BA c, v
     DIV.B  c, w
     ADD.X  v, w
     SLT.A  v, w
     MOV.BA v, *q
     ADD.A  #37, q
     NOP.X  {v, }w
     JMP.F  s
c    DAT.F  0, 13
d    DAT.F  331, 77
v    DAT.F  500, 900
w    DAT.F  2000, 4000
q    DAT.F  200, 0
