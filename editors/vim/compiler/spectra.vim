" Vim compiler file for Spectra: `:make` runs `spectra synth` on the file and takes the cursor to the fault.
if exists("current_compiler")
  finish
endif
let current_compiler = "spectra"

CompilerSet makeprg=spectra\ synth\ %:S
CompilerSet errorformat=%f:%l:%c:\ %m
