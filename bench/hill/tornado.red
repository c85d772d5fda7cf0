;redcode-94
;name Tornado
;author koth
;assert CORESIZE == 8000
;
; A bomber: three bombs a pass, without splitting, and a clear after 1,900 passes.

step EQU 45
     ORG st
a    DAT #0, #0
st   MOV b1, *p
     MOV b1, @p
     ADD.F inc, p
     MOV b2, *p
     DJN st, #1900
     SPL #0, <-12
     MOV b1, >w
     DJN.F -1, >w
     DAT 0, 0
p    DAT 300, 315
inc  DAT step, step
b1   DAT <1, <1
b2   SPL 0, 0
w    DAT 0, 20
