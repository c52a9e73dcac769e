" Charts in the readable notation (docs/CHARTS.md).
if exists("b:current_syntax")
  finish
endif
syntax case match
syntax iskeyword @,48-57,_,192-255

syntax keyword fairleadowDeclaration condition output scheme
syntax keyword fairleadowStep begin end do nothing write call
syntax keyword fairleadowChoice if then else
" matches and no keywords, for a node may be called so
syntax match fairleadowInterlock /\<\%(never\|always\|with\|while\|only\|after\)\>/
syntax match fairleadowHandler /\<when the stack is full\>/
syntax match fairleadowNumber /\<\d\+\>/
syntax match fairleadowArrow /->/
syntax match fairleadowNode /^\s*\zs\K\k*\ze\s*:/
syntax match fairleadowComment /#.*/ contains=@Spell

highlight default link fairleadowDeclaration Type
highlight default link fairleadowStep Statement
highlight default link fairleadowChoice Conditional
highlight default link fairleadowInterlock PreProc
highlight default link fairleadowHandler PreProc
highlight default link fairleadowNumber Number
highlight default link fairleadowArrow Operator
highlight default link fairleadowNode Label
highlight default link fairleadowComment Comment

let b:current_syntax = "fairleadow"
