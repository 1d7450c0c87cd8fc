" Highlighting of NDDL.
if exists("b:current_syntax")
  finish
endif
syntax case match

syntax match nddlName "\<[A-Za-z_][A-Za-z0-9_]*\>"
syntax match nddlCall "\<[A-Za-z_][A-Za-z0-9_]*\>\ze\_s*(" contains=nddlConstraint,nddlRelation,nddlPost,nddlDecision
syntax match nddlRuleHead "\<[A-Za-z_][A-Za-z0-9_]*\_s*::\_s*[A-Za-z_][A-Za-z0-9_]*"
syntax match nddlNumber "[+-]\?\<\d\+\(\.\d\+\)\?\>"
syntax match nddlNumber "[+-]\?\<inf\>"
syntax match nddlOperator "==\|!=\|="
syntax match nddlMark "[{}()\[\];,.]"

syntax keyword nddlKeyword class predicate enum typedef extends new super
syntax keyword nddlControl if else foreach in
syntax keyword nddlType int float bool string Object Timeline Reusable Reservoir PlannerConfig
syntax keyword nddlTruth true false
syntax keyword nddlPart object start end duration
syntax keyword nddlPost goal rejectable fact close
syntax keyword nddlDecision specify activate merge reject
syntax keyword nddlConstraint eq neq allDiff lt leq addEq mulEq testEQ testLEQ
syntax keyword nddlRelation any before after meets met_by equals contains contained_by starts ends parallels
syntax keyword nddlRelation paralleled_by starts_during contains_start ends_during contains_end

syntax match nddlInclude "#include"
syntax region nddlString start=+"+ end=+"+ oneline
syntax match nddlComment "//.*$" contains=@Spell
syntax region nddlComment start="/\*" end="\*/" contains=@Spell

highlight default link nddlName Identifier
highlight default link nddlCall Function
highlight default link nddlRuleHead Structure
highlight default link nddlNumber Number
highlight default link nddlOperator Operator
highlight default link nddlMark Delimiter
highlight default link nddlKeyword Keyword
highlight default link nddlControl Conditional
highlight default link nddlType Type
highlight default link nddlTruth Boolean
highlight default link nddlPart Special
highlight default link nddlPost Statement
highlight default link nddlDecision Statement
highlight default link nddlConstraint Function
highlight default link nddlRelation Function
highlight default link nddlInclude PreProc
highlight default link nddlString String
highlight default link nddlComment Comment

let b:current_syntax = "nddl"
