;redcode-94
;name Dwarf
;author koth
;assert (CORESIZE%4) == 0
;
; A bomber: every third turn it throws a DAT, four cells farther on each time. A process that executes a DAT ends. The core is a
; multiple of 4, so after a way round the core the bombs fall on the same cells again: of the dwarf's own four that is only
; the one from which the bomb is copied.

        ORG     start
bomb    DAT     #0, #0          ; the bomb, and in its B number how far it was thrown
start   ADD     #4, bomb
        MOV     bomb, @bomb
        JMP     start
        END
