;redcode-94
;name Vampire
;author koth
;assert CORESIZE == 8000
;
; A vampire: its fangs lead whoever steps on one into a pit that splits.

step EQU 2044
     ORG s
s    SPL #0, #0
v    MOV fang, @fang
     ADD.F inc, fang
     DJN.F v, <-200
inc  DAT #-step, #step
fang JMP pit-step, step
     FOR 10
     DAT 0, 0
     ROF
pit  SPL 0
     SPL -1
     JMP -2
