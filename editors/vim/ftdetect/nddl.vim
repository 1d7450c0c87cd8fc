autocmd BufRead,BufNewFile *.nddl setfiletype nddl
