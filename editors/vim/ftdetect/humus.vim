" Programs of Humus by their names. A file .asm is taken where it imports or exports a name; others are left alone.
autocmd BufRead,BufNewFile *.hum set filetype=humus
let s:line = '^\s*\.\%(import\|export\)\s\+\h\w*\s*\%(;.*\)\=$'
autocmd BufRead *.asm if search(s:line, 'cn') | set filetype=humusasm | endif
