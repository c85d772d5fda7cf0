;redcode-94
;name Compare scanner
;author koth
;assert CORESIZE == 8000
;
; A scanner that compares two cells a wide gap apart, bombs both, and clears the core at the end.

gap  EQU 12
step EQU 28
     ORG sc
g    DAT #car-g, wip+9-g
ad   ADD.F inc, sc
sc   SNE.I 100, 100+gap
     DJN.B ad, #2000
     MOV.AB #5, cnt
at   MOV car, }sc
     MOV car, >sc
cnt  DJN at, #5
     SUB.F bk, sc
     JMN ad, -10
cl   SPL #0, <g-3
     MOV *g, >g
     JMP -1, <g-3
bk   DAT 5, 5
inc  DAT step, step
car  SPL #wip-g, wip+9-g
wip  DAT #wip-g, wip+9-g
