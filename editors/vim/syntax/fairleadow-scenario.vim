" Scenarios of charts (docs/CHARTS.md).
if exists("b:current_syntax")
  finish
endif
syntax case match
syntax iskeyword @,48-57,_,192-255

syntax keyword fairleadowScenarioLine places swap
syntax keyword fairleadowScenarioStep until at most last expect
syntax keyword fairleadowScenarioSign output node code refusal of not only nothing
syntax match fairleadowScenarioCode /\%(\<code\s\+\)\@<=\%(home\|plain\|return\|drop\|call\)\>/
syntax match fairleadowScenarioNumber /\<\(0x\x\+\|\d\+\)\>/
syntax match fairleadowScenarioOperator /[+*=;,-]/
syntax match fairleadowScenarioComment /#.*/ contains=@Spell

highlight default link fairleadowScenarioLine PreProc
highlight default link fairleadowScenarioStep Statement
highlight default link fairleadowScenarioSign Type
highlight default link fairleadowScenarioCode Constant
highlight default link fairleadowScenarioNumber Number
highlight default link fairleadowScenarioOperator Operator
highlight default link fairleadowScenarioComment Comment

let b:current_syntax = "fairleadow-scenario"
