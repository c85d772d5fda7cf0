;redcode-94
;name Clear
;author koth
;assert CORESIZE >= 1000
;
; A core clear: it does not look for anybody, but writes over the whole core but itself, and that again and again. The cell
; `gate` says what is written, by its A number, and where the next one goes, by its B number, which each write raises. When the
; writing comes round to the gate itself, what is written there becomes the new gate: it leads to the next thing to write, and
; sets the writing behind this warrior. So the first round writes SPLs, which slow down everybody who steps on them, and all
; rounds after it write DATs, which end their processes. The B operands count down a cell before the gate, the fence: an imp
; that comes by just then copies itself to the wrong cell and ends.

past    EQU     (wipe+8-gate)   ; from the gate to the first cell that is written
fence   EQU     (gate-2)

        ORG     sweep
gate    DAT     #carpet-gate, past
        DAT     0, 0
sweep   SPL     #0, <fence      ; each turn here makes one process more for the lines below
write   MOV     *gate, >gate
        MOV     *gate, >gate
        JMP     write, <fence
carpet  SPL     #wipe-gate, past
wipe    DAT     #wipe-gate, past
        END
