;redcode-94
;name Silk of imps
;author koth
;assert CORESIZE == 8000
;
; A silk paper whose copies leave imps of one cell.

     ORG st
st   SPL 1
     SPL 1
     SPL 1
r    SPL @0, 3044
     MOV.I }r, >r
     SPL im, 0
     JMP r2, 0
im   MOV.I #2667, *0
r2   SPL @0, 1850
     MOV.I }r2, >r2
     DAT 0, 0
