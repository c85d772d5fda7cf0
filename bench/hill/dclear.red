;redcode-94
;name Two clears
;author koth
;assert CORESIZE == 8000
;
; It clears the core twice, behind a decrement that runs the other way.

     ORG sp
b    DAT #c1-b, c2+4-b
sp   SPL #0, <-12
m    MOV *b, >b
     DJN.F m, <4000
c1   SPL #c2-b, c2+4-b
c2   DAT #c2-b, c2+4-b
