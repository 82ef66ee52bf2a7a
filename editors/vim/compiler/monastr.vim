" :compiler monastr, then :make decides this file, and a refusal is in the quickfix list with its line and column. The commands are
" those of the clone that this file lies in.
let current_compiler = 'monastr'
let s:top = fnamemodify(resolve(expand('<sfile>:p')), ':h:h:h:h')
execute 'CompilerSet makeprg=' . escape(s:top . '/examples/places ' . s:top . '/monastr decide %:S', ' \|"')
CompilerSet errorformat=%f:%l:%c:\ error\ %n:\ %m,%-G%.%#
