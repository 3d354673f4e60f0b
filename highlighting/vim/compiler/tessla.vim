" Has `:make` check the specification of the buffer by tessla. Where it is refused, the list has an entry for that, with cause and remedy, and of a
" cycle one more for each definition on it. The program is `tessla` on the PATH, or what g:tessla_program names.
if exists('current_compiler')
  finish
endif
let current_compiler = 'tessla'

if exists(':CompilerSet') != 2
  command -nargs=* CompilerSet setlocal <args>
endif

let s:cpo_before = &cpo
set cpo&vim

" In a word of the shell % and # would become names of files.
let s:program = escape(shellescape(get(g:, 'tessla_program', 'tessla')), '%#')
let s:command = 'env TESSLA_TERMINAL=1 TESSLA_BUILD=0 ' . s:program . ' check -- %:p:S'
execute 'CompilerSet makeprg=' . escape(s:command, " \t\\|\"")

" The message of the program, below it the place with the name of the file, the line with a caret, and what helps. The parts of a cycle stand there too.
CompilerSet errorformat=
      \%Espec\ %l:%c:\ %m,
      \%-C\ \ \ \ %.%#,
      \%C\ \ cause:\ \ %m,
      \%Z\ \ remedy:\ %m,
      \%I\ \ %f:%l:%c:\ %m,
      \%C%f:%l:%c:\ %.%#,
      \%-Gok\ %.%#

augroup tessla
  autocmd!
  autocmd QuickFixCmdPost make call tessla#columns(0)
  autocmd QuickFixCmdPost lmake call tessla#columns(win_getid())
augroup END

let &cpo = s:cpo_before
unlet s:cpo_before s:program s:command
