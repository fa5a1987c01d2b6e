" `:compiler liftplc`, and then `:make` checks the file that is edited.
if exists("current_compiler")
  finish
endif
let current_compiler = "liftplc"
CompilerSet makeprg=liftplc\ check\ %:S\ --explain
" Below the place of a refusal are its line, a mark, and what is known of the thing, up to the line that names `explain`. All but the mark is kept.
CompilerSet errorformat=%E%f:%l:%c:\ %n:\ %m,%E%f:%l:\ %n:\ %m,%-Z`liftplc\ explain\ %.%#,%-C,%-C%\\s%#^%\\+,%C%m,%-G%.%#
