" Comments and words of lambda-Prolog.
if exists('b:did_ftplugin')
  finish
endif
let b:did_ftplugin = 1
setlocal commentstring=%\ %s
setlocal comments=s1:/*,mb:*,ex:*/,:%
setlocal iskeyword=@,48-57,_,39
let b:undo_ftplugin = 'setlocal commentstring< comments< iskeyword<'
