;redcode-94
;name Drawn 6
;author koth
;assert CORESIZE == 8000
;
; Written by bench/evolve, seed 1.

ORG 0
SEQ.F <2503, {-3799
SNE.BA *-519, #208
MUL.A {-2327, *1525
SLT.AB @4, }-4
NOP.A $-7, #-2326
SLT.F *7, >1207
SPL.BA {2, <2825
ADD.AB $11, >3268
SPL.F $1, $4
MOD.BA #9, <-3271
ADD.X *-1, {-2218
MUL.A $559, #-146
JMP.I $-4, $-1468
SNE.BA }8, >264
DJN.BA $1, >-10
JMN.F $1, $-3793
SEQ.I >-12, <12
END
