" Files of rdbg: a program, a line %%, and command lines.
autocmd BufNewFile,BufRead *.rdbg setfiletype rdbg
