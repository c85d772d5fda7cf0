;redcode-94
;name Stone
;author koth
;assert CORESIZE == 8000
;
; A stone: a process that stays feeds a loop of three instructions, which bombs every fourth cell.

step EQU 3044
     ORG go
go   SPL #0, #0
loop MOV bomb, loop+step
     ADD #step, loop
     JMP loop
bomb DAT #0, #0
