" What a buffer with a TeSSLa specification has: its comments, and `:make`, which checks it.
if exists('b:did_ftplugin')
  finish
endif
let b:did_ftplugin = 1

setlocal comments=:--,:# commentstring=--\ %s
compiler tessla

let b:undo_ftplugin = 'setlocal comments< commentstring< makeprg< errorformat< | unlet! b:current_compiler'
