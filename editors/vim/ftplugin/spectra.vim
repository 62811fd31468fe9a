" Vim file type plugin for Spectra: comments, `:make`, and `:Core`, which lists the lines of an unrealizable core.
if exists("b:did_ftplugin")
  finish
endif
let b:did_ftplugin = 1

setlocal commentstring=//\ %s
setlocal comments=s1:/*,mb:*,ex:*/,://,:--
setlocal formatoptions-=t formatoptions+=croql
compiler spectra

" The script stands in the repository, two folders above this one, where this folder is linked and not copied.
let s:numbered = fnamemodify(resolve(expand("<sfile>:p")), ":h:h:h:h") . "/tools/numbered.py"

function! s:Core() abort
  let file = shellescape(expand("%"))
  let before = &errorformat
  let &errorformat = "#%n%*\\s%f:%l: %m"
  cgetexpr system("spectra core " . file . " | python3 " . shellescape(s:numbered) . " " . file)
  let &errorformat = before
  copen
endfunction

if filereadable(s:numbered)
  command! -buffer Core call s:Core()
endif

let b:undo_ftplugin = "setlocal commentstring< comments< formatoptions< makeprg< errorformat< | silent! delcommand -buffer Core"
