" Texts of Livingstone by the ends of their names.
autocmd BufRead,BufNewFile *.lv setfiletype livingstone_model
autocmd BufRead,BufNewFile *.ses setfiletype livingstone_session
autocmd BufRead,BufNewFile *.cert setfiletype livingstone_certificate
