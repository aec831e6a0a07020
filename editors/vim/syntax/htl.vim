" Vim syntax file of HTL, as docs/LANGUAGE.md has the language.
" Add the folder above to Vim's path: set runtimepath+=/path/to/editors/vim
if exists("b:current_syntax")
  finish
endif

syntax case match
syntax keyword htlStructure program module mode port switch
syntax keyword htlStorage communicator sensor abstract task invoke
syntax keyword htlClause start input output worst period parent init
syntax keyword htlType int bool
syntax keyword htlBoolean true false
syntax keyword htlConditional if
syntax match htlNumber /\<\d\+\>/
syntax match htlOperator /[-+*\/%<>=!]=\?\|&&\|||/
syntax match htlDeclared /\<\(program\|module\|mode\|task\|invoke\)\s\+\zs\h\w*/
syntax match htlTooLong /\<\h\w\{48,}\>/
syntax match htlStray /[^\t -~]\|["#$'.:?@\[\\\]^`~]/
syntax match htlComment /\/\/.*$/ contains=@Spell,htlTodo
syntax keyword htlTodo contained TODO FIXME XXX

highlight default link htlStructure Structure
highlight default link htlStorage StorageClass
highlight default link htlClause Keyword
highlight default link htlType Type
highlight default link htlBoolean Boolean
highlight default link htlConditional Conditional
highlight default link htlNumber Number
highlight default link htlOperator Operator
highlight default link htlDeclared Identifier
highlight default link htlTooLong Error
highlight default link htlStray Error
highlight default link htlComment Comment
highlight default link htlTodo Todo

let b:current_syntax = "htl"
