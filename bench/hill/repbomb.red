;redcode-94
;name Bombing copier
;author koth
;assert CORESIZE == 8000
;
; A replicator that copies itself cell by cell, and drops bombs between two copies.

     ORG st
len  EQU 11
src  DAT 0, len
st   MOV.AB #len, src
     MOV <src, <dst
     JMN.B -1, src
     SPL @dst, <1000
     MOV bo, >3200
     MOV bo, >3203
     SUB #2473, dst
     JMN st, dst
bo   DAT <1, <1
dst  DAT 0, 4020
