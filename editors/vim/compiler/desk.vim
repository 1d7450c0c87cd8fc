" `:compiler desk`, and then `:make` checks the file with desk.
if exists("current_compiler")
  finish
endif
let current_compiler = "desk"
CompilerSet makeprg=desk\ explain\ --\ %:S
CompilerSet errorformat=%f:%l:%c:\ %m,%-G%.%#
