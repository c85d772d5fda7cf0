;redcode-94
;name Scanner
;author koth
;assert CORESIZE == 8000
;
; A scanner: it compares two cells of the core, `gap` apart, then the two behind them, and so on. In an empty core they
; are equal. Where they differ, somebody is there, and both get an SPL that leads to itself: a process that steps on it stays
; there, and makes ever more of its kind, for which the others have to wait. When the places come round to the scanner
; itself, it has seen the core once, and clears it as Clear does: first with SPLs, and then with DATs, behind a fence
; against imps.

gap     EQU     12
step    EQU     (2*gap)
past    EQU     (last+2-gate)   ; from the gate to the first cell that is cleared
fence   EQU     (gate-2)

        ORG     look
gate    DAT     #carpet-gate, past
next    ADD.F   stride, look
look    SEQ.I   gate+100, gate+100+gap
        JMP     found
        JMP     next
found   SLT.AB  #last+gap+2-look, look  ; the farther place is behind the scanner: the nearer one is too
        JMP     sweep
        MOV     carpet, *look
        MOV     carpet, @look
        JMP     next
sweep   SPL     #0, <fence
write   MOV     *gate, >gate
        MOV     *gate, >gate
        JMP     write, <fence
stride  DAT     step, step
carpet  SPL     #wipe-gate, past
wipe    DAT     #wipe-gate, past
last    DAT     0, 0
        END
