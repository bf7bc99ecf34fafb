" Faults and warnings of text adventure sources: :make lists them.
if exists('current_compiler')
  finish
endif
let current_compiler = 'paw'
if exists(':CompilerSet') != 2
  command -nargs=* CompilerSet setlocal <args>
endif

" The script that tells them: the one that g:paw_faults names, or that of the folder that this file is part of, or the one that is
" installed.
let s:beside = fnamemodify(resolve(expand('<sfile>:p')), ':h:h:h:h') . '/tools/faults'
let s:faults = get(g:, 'paw_faults', executable(s:beside) ? s:beside : 'paw-faults')
execute 'CompilerSet makeprg=' . escape(shellescape(s:faults) . ' --short --warnings -- %:p:.:S', ' \|"')
CompilerSet errorformat=%W%f:%l:%c:\ warning:\ %m,%E%f:%l:%c:\ %m,%W%f:%l:\ %m
