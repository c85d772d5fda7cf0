;redcode-94
;name Stone and spiral
;author koth
;assert CORESIZE == 8000
;
; A stone beside a spiral of three imps.

step EQU 3044
imp3 EQU 2667
     ORG go
go   SPL lau, <2000
     SPL #0, #0
loop MOV bomb, loop+step
     ADD #step, loop
     JMP loop
bomb DAT #0, #0
     FOR 20
     DAT 0, 0
     ROF
lau  SPL l1, #0
     SPL l2, #0
     JMP imp, #0
l1   SPL l4, #0
     JMP imp+imp3, #0
l2   JMP imp+2*imp3, #0
l4   JMP imp+1, #0
imp  MOV.I #imp3, *0
