;redcode-94
;name Silk of eight
;author koth
;assert CORESIZE == 8000
;
; A silk paper: eight processes make two copies, and bomb.

d1   EQU 1400
d2   EQU 2667
     ORG st
st   SPL 1, <300
     SPL 1, <400
     SPL 1, <500
s1   SPL @0, >d1
     MOV.I }s1, >s1
s2   SPL @0, >d2
     MOV.I }s2, >s2
     MOV.I bomb, >1800
     MOV.I {s2, <s3
s3   JMP @0, >3740
bomb DAT <2667, <5334
