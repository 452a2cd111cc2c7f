" :compiler snl, then :make leads to what snl check tells. scripts/editors makes this file.
if exists("current_compiler")
  finish
endif
let current_compiler = "snl"
CompilerSet makeprg=snl\ check\ %:S
CompilerSet errorformat=%f:%l:%c:\ %tarning:\ %m,%f:%l:\ %trror:\ %m,%f:%l:\ %tarning:\ %m,%-G%.%#
