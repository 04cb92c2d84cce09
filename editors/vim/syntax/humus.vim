" Vim syntax file
" Language: Humus, a language of actors (.hum), as docs/LANGUAGE.md says, section Tokens

if exists('b:current_syntax')
  finish
endif

" The bytes of a run: 33 to 126 without ( ) [ ] , . = : " $ \ #
syntax iskeyword 33,37-39,42-43,45,47-57,59-60,62-90,94-126
let s:byte = '[!%&''*+/0-9;<>?@A-Z^_`a-z{|}~-]'
let s:begin = s:byte . '\@1<!'
let s:end = s:byte . '\@!'

" Of two matches at one place Vim takes the one that is defined last.
execute 'syntax match humusName "' . s:byte . '\+"'
execute 'syntax match humusCall "' . s:byte . '\+(\@="'
execute 'syntax match humusNumber "' . s:begin . '[+-]\=\d\+' . s:end . '"'
execute 'syntax match humusWildcard "' . s:begin . '_' . s:end . '"'
execute 'syntax match humusConstant "' . s:begin . '?' . s:end . '"'

syntax keyword humusKeyword LET SEND TO CREATE WITH BECOME THROW NEW SELF CASE OF END IF ELIF ELSE
syntax keyword humusConstant TRUE FALSE NIL
syntax keyword humusRefused AFTER IN
syntax keyword humusBuiltin add sub mul compare less less_equal greater greater_equal equal and or not println say

syntax match humusMark "[()[\],.=:\\]"
syntax match humusValueMark "\$"
syntax match humusRefused "#[()[\],.=:\"$\\#]\@="
execute 'syntax match humusSymbol "#' . s:byte . '\+"'
syntax match humusComment "#\%([ \t\r].*\)\=$" contains=humusTodo,@Spell
syntax keyword humusTodo TODO FIXME contained

syntax match humusRefused +"\%([^"\\]\|\\.\)*\\\=$+
syntax match humusText +"\%([^"\\]\|\\.\)*"+ contains=humusEscape,humusNoEscape,@Spell
syntax match humusEscape +\\[nt"\\]+ contained
syntax match humusNoEscape +\\[^nt"\\]+ contained

highlight default link humusKeyword Keyword
highlight default link humusConstant Constant
highlight default link humusWildcard Special
highlight default link humusBuiltin Identifier
highlight default link humusCall Function
highlight default link humusNumber Number
highlight default link humusSymbol Tag
highlight default link humusText String
highlight default link humusEscape SpecialChar
highlight default link humusMark Delimiter
highlight default link humusValueMark PreProc
highlight default link humusComment Comment
highlight default link humusTodo Todo
highlight default link humusRefused Error
highlight default link humusNoEscape Error

unlet s:byte s:begin s:end
let b:current_syntax = 'humus'
