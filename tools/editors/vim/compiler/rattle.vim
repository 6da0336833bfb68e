" What a check names, for the list of :make: `:compiler rattle`, then `:make` for .ci/quick --prove, or `:make CRATE FUNCTION` with
" `:set makeprg=.ci/only`.
if exists("current_compiler")
  finish
endif
let current_compiler = "rattle"
CompilerSet makeprg=.ci/quick\ --prove
CompilerSet errorformat=%f:%l:%c:\ %trror[%*[^]]]:\ %m,%f:%l:%c:\ %trror:\ %m,%f:%l:%c:\ %tarning:\ %m,note:\ %f:%l:%c:\ %m,%-G%.%#
