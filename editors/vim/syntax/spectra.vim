" Vim syntax file for Spectra, the language of docs/LANGUAGE.md.
" How to install it: editors/README.md.
if exists("b:current_syntax")
  finish
endif

syntax case match
setlocal iskeyword=@,48-57,_,192-255

syntax keyword spectraStructure spec module import
syntax keyword spectraOwner env sys aux
syntax keyword spectraType boolean Int
syntax keyword spectraDeclaration type define predicate pattern var monitor
syntax keyword spectraRole asm assumption gar guarantee
syntax keyword spectraTime ini initially alw always G trans alwEv alwaysEventually GF trig
syntax keyword spectraPast PREV Y ONCE O HISTORICALLY H SINCE S TRIGGERED T
syntax keyword spectraOperator next not and or implies iff mod forall exists in
syntax keyword spectraConstant true false

syntax match spectraNumber "\<\d\+\>"
syntax match spectraSign "->\|<->\||=>\|:=\|\.\.\|!=\|<=\|>=\|[<>=!&|+*?-]"
syntax region spectraText start=+"+ end=+"+ oneline
syntax match spectraComment "//.*$" contains=@Spell
syntax match spectraComment "--.*$" contains=@Spell
syntax region spectraComment start="/\*" end="\*/" contains=@Spell

highlight default link spectraStructure Include
highlight default link spectraOwner StorageClass
highlight default link spectraType Type
highlight default link spectraDeclaration Keyword
highlight default link spectraRole Statement
highlight default link spectraTime Statement
highlight default link spectraPast Operator
highlight default link spectraOperator Operator
highlight default link spectraConstant Boolean
highlight default link spectraNumber Number
highlight default link spectraSign Operator
highlight default link spectraText String
highlight default link spectraComment Comment

let b:current_syntax = "spectra"
