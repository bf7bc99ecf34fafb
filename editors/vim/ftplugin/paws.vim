" Text adventure sources: what begins a comment, and what :make runs.
if exists('b:did_ftplugin')
  finish
endif
let b:did_ftplugin = 1
setlocal comments=:; commentstring=;\ %s
compiler paw
let b:undo_ftplugin = 'setlocal comments< commentstring< makeprg< errorformat<'
