" Vim syntax file
" Language: the assembly of Humus (.asm), as docs/FORMATS.md says, section Assembly

if exists('b:current_syntax')
  finish
endif

" What stands behind a part, and what stands before the first part of a line, before an operand and before a value.
let s:end = '\%([ \t\r;]\|$\)\@='
let s:first = '\%(^[ \t]*\)\@<='

function s:words(operation, words) abort
  let behind = '\%(^[ \t]*' . a:operation . '[ \t]\+\)\@<='
  execute 'syntax match humusasmWord "' . behind . '\%(' . join(a:words, '\|') . '\)' . s:end . '"'
endfunction

" Of two matches at one place Vim takes the one that is defined last.
syntax match humusasmPart "[^ \t\r;]\+"
execute 'syntax match humusasmName "\h\w*' . s:end . '"'
execute 'syntax match humusasmNumber "-\=\d\+' . s:end . '"'
let s:constants = ['nil', 'f', 't', 'type_t', 'fixnum_t', 'actor_t', 'sponsor_t', 'event_t', 'instr_t', 'pair_t',
      \ 'dict_t', 'deque_t', 'symbol_t', 'func_t', 'block_t']
execute 'syntax match humusasmConstant "#\%(?\|' . join(s:constants, '\|') . '\)' . s:end . '"'

let s:operations = ['push', 'typeq', 'eq', 'if', 'assert', 'depth', 'jump', 'debug', 'dup', 'drop', 'pick', 'roll',
      \ 'pair', 'part', 'quad', 'get', 'nth', 'msg', 'state', 'cmp', 'alu', 'my', 'actor', 'end', 'dict', 'deque',
      \ 'sponsor']
execute 'syntax match humusasmOperation "' . s:first . '\%(' . join(s:operations, '\|') . '\)' . s:end . '"'
execute 'syntax match humusasmCell "' . s:first . '\%(ref\|pair_t\|cell\)' . s:end . '"'
execute 'syntax match humusasmDirective "' . s:first . '\.\%(import\|export\)' . s:end . '"'
execute 'syntax match humusasmLabel "' . s:first . '\h\w*:' . s:end . '"'

call s:words('cmp', ['eq', 'ge', 'gt', 'lt', 'le', 'ne'])
call s:words('alu', ['not', 'and', 'or', 'xor', 'add', 'sub', 'mul'])
call s:words('my', ['self', 'beh', 'state'])
call s:words('actor', ['send', 'post', 'create', 'assign', 'become'])
call s:words('end', ['abort', 'stop', 'commit'])
call s:words('dict', ['has', 'get', 'add', 'set', 'del'])
call s:words('deque', ['new', 'empty', 'push', 'pop', 'put', 'pull', 'len'])
call s:words('sponsor', ['new', 'memory', 'events', 'cycles', 'reclaim', 'start', 'stop'])

syntax match humusasmComment ";.*$" contains=humusasmTodo,@Spell
syntax keyword humusasmTodo TODO FIXME contained

highlight default link humusasmPart Error
highlight default link humusasmOperation Statement
highlight default link humusasmWord Type
highlight default link humusasmCell Structure
highlight default link humusasmDirective PreProc
highlight default link humusasmLabel Label
highlight default link humusasmName Identifier
highlight default link humusasmNumber Number
highlight default link humusasmConstant Constant
highlight default link humusasmComment Comment
highlight default link humusasmTodo Todo

delfunction s:words
unlet s:end s:first s:constants s:operations
let b:current_syntax = 'humusasm'
