;redcode-94
;name Counter
;author koth
;assert CORESIZE == 8000
;
; Loops that count down under rare modifiers, and add what they counted.

     ORG s
s    MOV.BA #60, n
l    ADD.B  n, m
     SUB.A  #3, m
     JMZ.A  e, m
     SLT.BA n, m
     ADD.BA m, o
     DJN.A  l, n
e    MOV.B  m, *o
     MOV.F  n, @o
     ADD.F  f, o
     JMN.F  s, o
     JMZ.X  s, m
     JMP.I  s
f    DAT.F  29, 53
n    DAT.F  60, 40
m    DAT.F  9, 21
o    DAT.F  300, 400
