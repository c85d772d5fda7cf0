" What Vim does in a source of Redcode: `:make` lists its faults and warnings.
if exists('b:did_ftplugin')
  finish
endif
let b:did_ftplugin = 1

setlocal commentstring=;\ %s
setlocal makeprg=koth\ check\ --warnings\ %:S
" A warning, a fault, and a line of the source that is shown with it, which is left out.
setlocal errorformat=%f:%l:%c:\ %tarning:\ %m,%f:%l:%c:\ %m,%-G%.%#

let b:undo_ftplugin = 'setlocal commentstring< makeprg< errorformat<'
