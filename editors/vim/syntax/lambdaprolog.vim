" Tokens of lambda-Prolog, as docs/LANGUAGE.md has them.
if exists('b:current_syntax')
  finish
endif
" A word goes on with letters, digits, _ and ', and with a - before one of these. Later items win where two begin together.
syntax match lambdaprologOperator /:-\|=>\|<=>\|::\|->\|?-\|[,;|\\!=+*~>-]/
syntax match lambdaprologNumber /-\?\d\+/
syntax match lambdaprologName /\v[[:lower:][:upper:]](\k|-\k@=)*/
syntax match lambdaprologVariable /\v[A-Z_](\k|-\k@=)*/
syntax match lambdaprologMode /\v<[io]\ze\s*:[:-]@!/
syntax match lambdaprologBuiltin /\v<(true|fail|same|var|nonvar|name|distinct|lt|print|beta|declare_constraint)(\k|-\k)@!/
syntax match lambdaprologKeyword /\v<(pred|kind|type|constraint|rule|pi|sigma|is)(\k|-\k)@!/
syntax match lambdaprologBinder /\v[[:lower:][:upper:]_](\k|-\k@=)*\ze\s*\\/
syntax match lambdaprologEscape /\\[nt\\"]/ contained
syntax region lambdaprologString start=/"/ skip=/\\./ end=/"/ contains=lambdaprologEscape
syntax match lambdaprologComment /%.*$/ contains=@Spell
syntax region lambdaprologComment start=+/\*+ end=+\*/+ contains=@Spell
syntax iskeyword @,48-57,_,39
highlight default link lambdaprologNumber Number
highlight default link lambdaprologVariable Identifier
highlight default link lambdaprologBinder Special
highlight default link lambdaprologKeyword Keyword
highlight default link lambdaprologBuiltin Function
highlight default link lambdaprologOperator Operator
highlight default link lambdaprologMode Type
highlight default link lambdaprologEscape SpecialChar
highlight default link lambdaprologString String
highlight default link lambdaprologComment Comment
let b:current_syntax = 'lambdaprolog'
