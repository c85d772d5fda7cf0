;redcode-94
;name Idler
;author koth
;assert CORESIZE == 8000
;
; Many processes that do little but raise and lower numbers.

     ORG s
s    SPL.A  1, <-200
     SPL.X  1, {-300
     SPL.F  1, }-400
l    NOP.A  >1000, <2000
     NOP.X  {1500, }2500
     NOP.I  *700, @900
     NOP.AB }3000, >3500
     JMP.BA l, {-500
