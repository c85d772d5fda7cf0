;redcode-94
;name Paper against imps
;author koth
;assert CORESIZE == 8000
;
; A paper whose bombs are meant for imps.

     ORG st
st   SPL 1, <2000
     SPL 1, <3000
     MOV -1, 0
p    SPL @0, <2050
     MOV }p, >p
     MOV }p, >p
     MOV bmb, <870
     MOV bmb, }-1
q    SPL @0, <1100
     MOV }q, >q
     JMP q, {q
bmb  DAT 1, 1
