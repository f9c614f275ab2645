" Vim compiler file for listings of dexasm: `:make` runs dexasm-check and `:cnext` goes to each fault.
if exists('current_compiler')
  finish
endif
let current_compiler = 'dexasm'
CompilerSet makeprg=dexasm-check\ %:S
CompilerSet errorformat=%f:%l:%c:\ %trror:\ %m,%-G%.%#
