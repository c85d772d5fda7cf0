;redcode-94
;name Through
;author koth
;assert CORESIZE == 8000
;
; All its operands lead through other cells, by their A numbers.

     ORG s
s    MOV.I  *a, }b
     MOV.AB }a, {c
     ADD.BA *b, {c
     SLT.F  {a, *b
     SUB.F  *b, }c
     MUL.X  {c, *a
     JMP.AB *j, }a
a    DAT.F  1000, 1000
b    DAT.F  2500, 2500
c    DAT.F  3700, 3700
j    DAT.F  s-j, 0
