autocmd BufRead,BufNewFile *.ispc setfiletype ispc
