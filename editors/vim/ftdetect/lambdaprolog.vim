" Programs for Doqwesha and ELPI.
autocmd BufRead,BufNewFile *.lp,*.elpi set filetype=lambdaprolog
