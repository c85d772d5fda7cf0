;redcode-94
;name Paper
;author koth
;assert CORESIZE == 8000 && MAXPROCESSES >= 64
;
; A replicator: eight processes copy the eight cells from `copy` on, one cell each, to a place far away, and eight more
; begin there. Each copy does the same, so soon there are more of them than anybody hits. Behind its copying a process
; splits for ever, and the new ones throw bombs.

away    EQU     2365            ; from a copy to the next
aim     EQU     1143            ; where the bombs begin to fall

        SPL     1
        SPL     1
        SPL     1               ; three doublings: eight processes, one behind the other
copy    SPL     @0, away        ; one more begins at the new copy, whose first cell stands there before it is its turn
        MOV     }copy, >copy
        SPL     0
throw   MOV     bomb, >aim
        ADD     #7, throw
        JMP     throw
bomb    DAT     #1, #1
        END
