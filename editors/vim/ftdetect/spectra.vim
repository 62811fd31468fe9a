autocmd BufNewFile,BufRead *.spectra setfiletype spectra
