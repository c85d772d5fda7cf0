;redcode-94
;name Silk of six
;author koth
;assert CORESIZE == 8000
;
; A silk paper: six processes, and a JMZ that ends dead copies.

d1   EQU 3620
d2   EQU 1270
     ORG st
st   SPL 1
     MOV -1, 0
     SPL 1
s1   SPL @0, d1
     MOV.I }s1, >s1
     MOV.I bomb, {-300
s2   SPL @0, d2
     MOV.I }s2, >s2
     JMZ.F s1, *s1
bomb DAT <1, {1
