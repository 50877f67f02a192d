autocmd BufRead,BufNewFile *.ipdl setfiletype ipdl
