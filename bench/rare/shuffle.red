;redcode-94
;name Shuffle
;author koth
;assert CORESIZE == 8000
;
; A paper that splits and jumps under rare modifiers, and copies by a number that others change.

     ORG s
s    SPL.A  1, {400
     SPL.F  1, }500
     SPL.X  1, *300
t    SPL.X  @0, >2471
     MOV.I  }t, >t
     MOV.X  u, {2005
     NOP.BA }u, >800
     SPL.BA @0, {3913
     MOV.I  }-1, >-1
     JMP.F  t, <-5
u    DAT.F  2471, 3913
