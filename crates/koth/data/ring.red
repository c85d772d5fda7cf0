;redcode-94
;name Ring and clear
;author koth
;
; An imp ring and a core clear. Eight processes run as imps in three arms, a third of the core apart: each imp copies its
; instruction to the cell where the next one is about to step, so it is not enough to hit one of them. To begin so, each
; process has to arrive at its own place, one after the other: the doublings make eight of them, and the jump through
; `pick` sends each to the next line of a table, which FOR writes. The clear is that of Clear without the fence, which
; would hit its own imps.
;
; By FOR and EQU it is cut to the core: an imp's step is a third of it, where the core allows that at all.

arms    EQU     3
step    EQU     ((CORESIZE+1)/arms)
doubles EQU     3
imps    EQU     8                       ; 2 to the power of doubles
past    EQU     (imp+3-gate)            ; from the gate to the first cell that is cleared

;assert (arms*step) == (CORESIZE+1)
;assert MAXPROCESSES >= 64

        ORG     start
gate    DAT     #carpet-gate, past
start   SPL     sweep
        FOR     doubles
        SPL     1
        ROF
        JMP     }pick
pick    DAT     go01, go08              ; the first and the last line of the table
i       FOR     imps
go&i    JMP     imp+((i-1)*step)
        ROF
sweep   SPL     #0, 0
write   MOV     *gate, >gate
        MOV     *gate, >gate
        JMP     write
carpet  SPL     #wipe-gate, past
wipe    DAT     #wipe-gate, past
imp     MOV.I   0, step

;assert CURLINE <= MAXLENGTH
        END
