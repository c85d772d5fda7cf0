;redcode-94
;name Imp
;author koth
;assert CORESIZE >= 64
;
; The smallest warrior: one instruction that copies itself to the next cell, where its process then goes. It runs through
; the whole core and leaves its own copies behind. Whoever steps on one of them goes on as an imp, so it seldom loses and
; never wins by itself.

        MOV.I   0, 1
        END
