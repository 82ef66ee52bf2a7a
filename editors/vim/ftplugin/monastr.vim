" Comments of sources of monastr.
setlocal commentstring=#\ %s comments=:#,s1:/*,mb:*,ex:*/
let b:undo_ftplugin = 'setlocal commentstring< comments<'
