;redcode-94
;name Crossed
;author koth
;assert CORESIZE == 8000
;
; Everything under .X: a scanner that compares crosswise, and bombs with numbers.

     ORG s
s    SUB.X  d, p
     SEQ.X  *p, @p
     JMP.X  h
     SNE.X  p, d
     ADD.X  #1, p
     DJN.X  s, <-700
     JMP.X  s
h    MOV.X  b, *p
     MOV.X  b, @p
     ADD.X  e, p
     JMN.X  s, p
     JMP.X  s
b    DAT.X  11, 17
d    DAT.F  14, 3061
e    DAT.F  2, 5
p    DAT.F  1500, 5500
