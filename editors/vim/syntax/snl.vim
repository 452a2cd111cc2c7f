" Vim syntax of the State Notation Language. scripts/editors makes this file.
if exists("b:current_syntax")
  finish
endif

syntax keyword snlStructure program ss state entry exit when to option
syntax keyword snlDefinition assign monitor sync syncq syncQ evflag foreign typename
syntax keyword snlStatement break continue else for if return while
syntax keyword snlOperator sizeof
syntax keyword snlType char double enum float int int8_t int16_t int32_t int64_t long short string struct uint8_t uint16_t uint32_t uint64_t union unsigned void
syntax keyword snlFunction delay efClear efSet efTest efTestAndClear printf pvChannelCount pvConnectCount pvConnected pvFlushQ pvGet pvGetQ pvPut pvPutComplete
syntax keyword snlConstant TRUE FALSE ASYNC
syntax match snlNumber /\v<(0[xX]\x+[lL]?|\d+\.\d*|\d+[lL]?)>|\.\d+>/
syntax region snlString start=/"/ skip=/\\"/ end=/"/ oneline
syntax match snlCharacter /'\(\\[ntr0\\'"]\|[^'\\]\)'/
syntax region snlComment start=/\/\*/ end=/\*\//
syntax match snlMarker /^\s*#.*/

highlight default link snlStructure Structure
highlight default link snlDefinition StorageClass
highlight default link snlStatement Statement
highlight default link snlOperator Operator
highlight default link snlType Type
highlight default link snlFunction Function
highlight default link snlConstant Constant
highlight default link snlNumber Number
highlight default link snlString String
highlight default link snlCharacter Character
highlight default link snlComment Comment
highlight default link snlMarker PreProc
let b:current_syntax = "snl"
