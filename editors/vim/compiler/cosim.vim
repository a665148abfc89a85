" Judges a model by :make, which goes to the line that is refused; the rule and its cure stand in the list of errors. It
" calls `explain` of the repository that this file or the link to it leads to, and else the one on the PATH. The note of
" `cosim check`, as `cosim: line 4: rule 10`, is understood too; it names no file.
if exists("current_compiler")
  finish
endif
let current_compiler = "cosim"

let s:explain = fnamemodify(resolve(expand("<sfile>:p")), ":h:h:h:h") . "/explain"
if !executable(s:explain)
  let s:explain = "explain"
endif

execute "CompilerSet makeprg=" . escape(shellescape(s:explain) . " %:S", ' |"\')
CompilerSet errorformat=%f:%l:\ rule\ %n:\ %m,cosim:\ line\ %l:\ %m,%-G%f:\ accepted
