" Vim syntax file: tokens of assembly sources, as docs/ASSEMBLER.md has them; mnemonics of docs/INSTRUCTIONS.md.
if exists('b:current_syntax')
  finish
endif
let s:cpo = &cpo
set cpo&vim

syntax case match

let s:words = {
      \ 'xtensaasmMnemonic': ['AND', 'OR', 'XOR', 'NEG', 'ABS', 'ADD', 'ADDX2', 'ADDX4', 'ADDX8', 'SUB', 'SUBX2',
      \   'SUBX4', 'SUBX8', 'RET', 'JX', 'CALLX0', 'NOP', 'SIMCALL', 'SSR', 'SSL', 'SSAI', 'SLLI', 'SRAI', 'SRLI',
      \   'SRC', 'SRL', 'SLL', 'SRA', 'EXTUI', 'SEXT', 'MUL16U', 'MUL16S', 'MULL', 'MIN', 'MAX', 'MINU', 'MAXU',
      \   'MOVEQZ', 'MOVNEZ', 'MOVLTZ', 'MOVGEZ', 'L32R', 'L8UI', 'L16UI', 'L16SI', 'L32I', 'S8I', 'S16I', 'S32I',
      \   'MOVI', 'ADDI', 'ADDMI', 'CALL0', 'J', 'BEQZ', 'BNEZ', 'BLTZ', 'BGEZ', 'BEQI', 'BNEI', 'BLTI', 'BGEI',
      \   'BLTUI', 'BGEUI', 'BNONE', 'BEQ', 'BLT', 'BLTU', 'BALL', 'BBC', 'BBCI', 'BANY', 'BNE', 'BGE', 'BGEU',
      \   'BNALL', 'BBS', 'BBSI'],
      \ }

" where a statement begins, or its part: a word there is a mnemonic, an operation or a format
let s:start = '\%(\%(^\|[:;{]\)\s*\)\@<='

" Of the items that match at one place the last one is taken, so the general ones come first.
syntax match xtensaasmError /[^ \t\r]/
syntax match xtensaasmName /[A-Za-z_]\w*/
syntax match xtensaasmRegister /a\%(1[0-5]\|\d\)\w\@!/
execute 'syntax match xtensaasmOperation /' . s:start . '[A-Za-z_]\w*/'
for [s:group, s:list] in items(s:words)
  execute 'syntax match' s:group '/\c' . s:start . '\%(' . join(s:list, '\|') . '\)\w\@!/'
endfor
execute 'syntax match xtensaasmFormat /' . s:start . '[A-Za-z_]\w*\%(\s*{\)\@=/'
syntax match xtensaasmLabel /\%(^\s*\)\@<=[A-Za-z_]\w*\%(\s*:\)\@=/
" more than 32 bytes
syntax match xtensaasmError /[A-Za-z_]\w\{32,}/

syntax match xtensaasmNumber /-\?\d\+/
" no digit after it
syntax match xtensaasmError /0x/
syntax match xtensaasmNumber /0x\x\+/

syntax match xtensaasmError /\.\w*/
syntax match xtensaasmDirective /\.\%(byte\|word\|align\)\w\@!/
syntax match xtensaasmMark /[,:;{}]/
syntax match xtensaasmComment /#.*/

highlight default link xtensaasmMnemonic Statement
highlight default link xtensaasmOperation Function
highlight default link xtensaasmFormat Type
highlight default link xtensaasmLabel Label
highlight default link xtensaasmDirective PreProc
highlight default link xtensaasmRegister Identifier
highlight default link xtensaasmName Normal
highlight default link xtensaasmNumber Number
highlight default link xtensaasmMark Delimiter
highlight default link xtensaasmComment Comment
highlight default link xtensaasmError Error

let b:current_syntax = 'xtensaasm'
let &cpo = s:cpo
unlet s:cpo s:words s:start s:group s:list
