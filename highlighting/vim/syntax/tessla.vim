" Highlighting of TeSSLa specifications.
if exists('b:current_syntax')
  finish
endif

syntax case match
syntax match tesslaName /\<\K\k*/
syntax match tesslaNumber /\<\d\+/
syntax match tesslaPunctuation /[:,.(){}[\]]/
syntax match tesslaOperator /:=\|||\|&&\|==\|!=\|<=\|>=\|[=<>+\-*\/%!]/
syntax keyword tesslaItem in def nextgroup=tesslaDefined skipwhite
syntax keyword tesslaItem out as
syntax keyword tesslaChoice if then else
syntax keyword tesslaTruth true false
syntax keyword tesslaType Events Option Unit Int Bool
" No keywords, since these would hide the functions Set.add and the like.
syntax match tesslaType /\<\%(Set\|Map\|Queue\|String\)\>/
syntax keyword tesslaFunction unit nil time last delay merge default lift const filter isSome isNone getSome Some None
syntax match tesslaFunction /\<\%(Set\|Map\)\.\%(empty\|add\|remove\|contains\|size\|get\)\>/
syntax match tesslaFunction /\<Queue\.\%(empty\|enqueue\|dequeue\|front\|size\)\>/
syntax match tesslaFunction /\<String\.\%(concat\|size\)\>/
syntax match tesslaDefined /\K\k*/ contained
syntax match tesslaComment /\%(--\|#\).*$/
syntax match tesslaBadEscape /\\./ contained
syntax match tesslaEscape /\\["\\ntr]/ contained
syntax region tesslaText start=/"/ skip=/\\./ end=/"\|$/ oneline contains=tesslaBadEscape,tesslaEscape

highlight default link tesslaItem Keyword
highlight default link tesslaChoice Conditional
highlight default link tesslaTruth Boolean
highlight default link tesslaType Type
highlight default link tesslaFunction Function
highlight default link tesslaDefined Identifier
highlight default link tesslaNumber Number
highlight default link tesslaOperator Operator
highlight default link tesslaPunctuation Delimiter
highlight default link tesslaComment Comment
highlight default link tesslaText String
highlight default link tesslaEscape SpecialChar
highlight default link tesslaBadEscape Error

let b:current_syntax = 'tessla'
