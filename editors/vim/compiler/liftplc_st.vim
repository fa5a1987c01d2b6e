" `:compiler liftplc_st`, and then `:make` translates and checks the file that is edited. tools/st of the checkout that has this file is called.
if exists("current_compiler")
  finish
endif
let current_compiler = "liftplc_st"
let s:tool = fnamemodify(resolve(expand("<sfile>:p")), ":h:h:h:h") .. "/tools/st"
execute "CompilerSet makeprg=" .. escape(s:tool .. " %:S --check", " \\|\"")
" As in liftplc.vim.
CompilerSet errorformat=%E%f:%l:%c:\ %n:\ %m,%E%f:%l:%c:\ %m,%-Z`liftplc\ explain\ %.%#,%-C,%-C%\\s%#^%\\+,%C%m,%-G%.%#
