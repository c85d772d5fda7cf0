;redcode-94
;name Mixer
;author koth
;assert CORESIZE == 8000
;
; Arithmetic of every kind in one loop, with operands that lower and raise numbers.

     ORG s
s    MOV.F  x, p
     MOV.X  x, q
     ADD.I  {p, <q
     SUB.AB }p, >q
     MUL.BA <q, {p
     MUL.F  r, @q
     DIV.A  #3, {p
     MOD.B  r, <q
     SNE.A  p, q
     SLT.X  *p, @q
     JMN.AB s, >q
     JMP.B  s, >p
r    DAT.F  7, 11
p    DAT.F  900, 1100
q    DAT.F  2100, 3300
x    DAT.F  1300, 2900
