" Documents of ipdl. editors/generate writes this file from the table of rules; do not edit it.
if exists("b:current_syntax")
  finish
endif
syn case match

syn match ipdlComment ";.*$" contains=@Spell
syn match ipdlNumber "\v<(0|[1-9][0-9]*)>"
syn match ipdlLiteral "\v#[01]*"
syn match ipdlVariable "\v<x(0|[1-9][0-9]*)>"
syn match ipdlDirection "\v<(lr|rl)>"

" What no token begins with or goes on with.
syn match ipdlError "[]!\x22$%&'*+,./:<=>?@[\\^`{|}~-]"
syn match ipdlError "\v#[01]*[^01 \t();]+"
syn match ipdlError "\v<0[0-9]+"

" The word in front of a list says what the list is. `table` is an item before a name, and a rule before a path.
syn match ipdlItem "\v\(@1<=(fun|table|protocol|assume|theorem)>" nextgroup=ipdlName skipwhite
syn match ipdlItem "\v\(@1<=(ipdl|inputs|outputs|left|right)>"
syn match ipdlName "\v<[[:alpha:]_][[:alnum:]_]*>" contained
syn match ipdlProtocol "\v\(@1<=(nil|out|par|new)>"
syn match ipdlReaction "\v\(@1<=(ret|flip|read|if|bind)>"
syn match ipdlOperator "\v\(@1<=(xor|and|not|cat|cut|eq|mux)>"
syn match ipdlRule "\v\(@1<=(beta|eta|assoc|swap|dropr|again|iftrue|iffalse|ifsame|ifbind|mask|perm|join|flip0|tidy|table|lin|comm|assocl|assocr|unit|newswap|scope|rename|absorb|fold|subst|drop|subsume|diverge|shape)>(\_s*\()@="
syn match ipdlStep "\v\(@1<=(rev|use)>"

hi def link ipdlComment Comment
hi def link ipdlNumber Number
hi def link ipdlLiteral Constant
hi def link ipdlVariable Identifier
hi def link ipdlDirection Constant
hi def link ipdlError Error
hi def link ipdlItem Structure
hi def link ipdlName Title
hi def link ipdlProtocol Statement
hi def link ipdlReaction Keyword
hi def link ipdlOperator Operator
hi def link ipdlRule Function
hi def link ipdlStep PreProc

let b:current_syntax = "ipdl"
