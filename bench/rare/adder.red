;redcode-94
;name Adder
;author koth
;assert CORESIZE == 8000
;
; A stone whose aim is a product and a sum, under .A, .BA and .X.

     ORG s
s    MUL.A  k, p
     ADD.AB #2365, p
     MOV.X  b, @p
     SUB.BA p, k
     ADD.A  #5, k
     JMP.A  s, <-300
b    DAT.X  >5, {3
k    DAT.A  3, 1
p    DAT.A  7, 100
