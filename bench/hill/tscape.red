;redcode-94
;name Three copiers
;author koth
;assert CORESIZE == 8000
;
; A paper with three replicators, each of another kind of step.

a1   EQU 4100
a2   EQU 1740
a3   EQU 6300
     ORG st
st   SPL 1, <a1
     SPL 1, <a2
     SPL 1, <a3
k1   SPL @0, {a1
     MOV.I }-1, >-1
k2   SPL @0, <a2
     MOV.I }-1, >-1
     MOV.I bb, }a3
     MOV.I {k2, <k3
k3   JMP @0, >a3
bb   DAT <2667, <2667
