" Vim syntax file: tokens of TIE texts, as docs/TIE-LANGUAGE.md has them.
if exists('b:current_syntax')
  finish
endif
let s:cpo = &cpo
set cpo&vim

syntax case match
syntax sync fromstart

let s:words = {
      \ 'tieDeclaration': ['state', 'regfile', 'queue', 'table', 'immediate_range', 'function', 'operation',
      \   'schedule', 'format', 'slot_opcodes'],
      \ 'tieItem': ['wire', 'assign', 'use', 'def'],
      \ 'tieDirection': ['in', 'out', 'inout'],
      \ 'tieStage': ['Estage', 'Mstage'],
      \ 'tieFunction': ['TIEadd', 'TIEmul', 'TIEmux'],
      \ }

" Of the items that match at one place the last one is taken, so the general ones come first.
syntax match tieError /[^ \t\r]/

syntax match tieName /\a\w*/
for [s:group, s:list] in items(s:words)
  execute 'syntax match' s:group '/\%(' . join(s:list, '\|') . '\)\w\@!/'
endfor
" more than 32 bytes
syntax match tieError /\a\w\{32,}/

syntax match tieNumber /\d\+/
syntax match tieError /\d\{40,}/
" no base, or no digit after it
syntax match tieError /\d\+'\|0x/
syntax match tieNumber /0x\x\+/
syntax match tieError /0x\x\{33,}/
syntax match tieNumber /\d\+'\%(h\x[0-9A-Fa-f_]*\|d\d[0-9_]*\|b[01][01_]*\)/
" more than 64 bytes, in base b more than 200
syntax match tieError /\d\+'h\x[0-9A-Fa-f_]*\%([0-9A-Fa-f_'h]\{65}\)\@<=/
syntax match tieError /\d\+'d\d[0-9_]*\%([0-9_'d]\{65}\)\@<=/
syntax match tieError /\d\+'b[01][01_]*\%([0-9_'b]\{201}\)\@<=/

syntax match tieMark /[{}()[\],;:]/
syntax match tieOperator /[-?=<>+*&|^~!]\|!=/

" no byte of a text, in a comment either
syntax match tieByte /[^\t\r -~]/ contained
syntax match tieComment +//.*+ contains=tieByte
syntax region tieComment start=+/\*+ end=+\*/+ contains=tieByte

highlight default link tieDeclaration Structure
highlight default link tieItem Statement
highlight default link tieDirection StorageClass
highlight default link tieStage Constant
highlight default link tieFunction Function
highlight default link tieName Normal
highlight default link tieNumber Number
highlight default link tieMark Delimiter
highlight default link tieOperator Operator
highlight default link tieComment Comment
highlight default link tieByte Error
highlight default link tieError Error

let b:current_syntax = 'tie'
let &cpo = s:cpo
unlet s:cpo s:words s:group s:list
