" Words of the language of monastr (docs/LANGUAGE.md, "Tokens").
if exists('b:current_syntax')
    finish
endif

syntax case match
syntax iskeyword @,48-57,_,'

syntax keyword monastrKeyword ws1s var0 var1 var2 const pred macro include defaultwhere1 defaultwhere2 where restrict import export
syntax keyword monastrKeyword ex0 ex1 ex2 all0 all1 all2 let0 let1 let2
syntax keyword monastrOperator in notin sub empty min max union inter pconst
syntax keyword monastrBoolean true false
syntax keyword monastrLeftOut ws2s tree guide universe type assert verify execute prefix allpos lastpos
syntax match monastrKeyword /\<m2l-str\ze\s*;/
syntax match monastrKeyword /\<goal\ze\s*"/
syntax match monastrNumber /\<\d\+/
syntax match monastrString /"[^"]*"/
syntax match monastrComment /#.*/ contains=monastrTodo
syntax region monastrComment start=+/\*+ end=+\*/+ contains=monastrTodo
syntax keyword monastrTodo TODO FIXME XXX contained
syntax sync fromstart

highlight default link monastrKeyword Statement
highlight default link monastrOperator Operator
highlight default link monastrBoolean Boolean
highlight default link monastrLeftOut Error
highlight default link monastrNumber Number
highlight default link monastrString String
highlight default link monastrComment Comment
highlight default link monastrTodo Todo

let b:current_syntax = 'monastr'
