" Uxntal: a word is what stands between blanks, and its first character says what it is.
if exists('b:current_syntax')
  finish
endif
syntax case match
syntax match uxntalCall /\S\+/
syntax match uxntalText /\%(^\|\s\)\@<="\S*/
syntax match uxntalLabel /\%(^\|\s\)\@<=[@&]\S\+/
syntax match uxntalPad /\%(^\|\s\)\@<=[|$]\x\{1,4}\%(\s\|$\)\@=/
syntax match uxntalNumber /\%(^\|\s\)\@<=#\=\%(\x\x\)\{1,2}\%(\s\|$\)\@=/
syntax match uxntalMacro /\%(^\|\s\)\@<=%\S\+/
syntax match uxntalInclude /\%(^\|\s\)\@<=\~\S\+/
" facts: words
syntax match uxntalReference /\%(^\|\s\)\@<=[\/,_.;=!?-]\S\+/
syntax match uxntalBrace /\%(^\|\s\)\@<=[,_.;=!?-]\=[{}[\]]\%(\s\|$\)\@=/
syntax match uxntalOpcode /\%(^\|\s\)\@<=\%(BRK\|JCI\|JMI\|JSI\)\%(\s\|$\)\@=/
syntax match uxntalOpcode /\%(^\|\s\)\@<=\%(LIT\|INC\|POP\|NIP\|SWP\|ROT\|DUP\|OVR\)[2kr]*\%(\s\|$\)\@=/
syntax match uxntalOpcode /\%(^\|\s\)\@<=\%(EQU\|NEQ\|GTH\|LTH\|JMP\|JCN\|JSR\|STH\)[2kr]*\%(\s\|$\)\@=/
syntax match uxntalOpcode /\%(^\|\s\)\@<=\%(LDZ\|STZ\|LDR\|STR\|LDA\|STA\|DEI\|DEO\)[2kr]*\%(\s\|$\)\@=/
syntax match uxntalOpcode /\%(^\|\s\)\@<=\%(ADD\|SUB\|MUL\|DIV\|AND\|ORA\|EOR\|SFT\)[2kr]*\%(\s\|$\)\@=/
" facts end
syntax region uxntalNested contained matchgroup=uxntalNested
      \ start=/\%(^\|\s\)\@<=(\%(\s\|$\)\@=/ end=/\%(^\|\s\)\@<=)\%(\s\|$\)\@=/ contains=uxntalNested
syntax region uxntalComment matchgroup=uxntalComment
      \ start=/\%(^\|\s\)\@<=(/ end=/\%(^\|\s\)\@<=)\%(\s\|$\)\@=/ contains=uxntalNested
syntax sync fromstart
highlight default link uxntalCall Function
highlight default link uxntalText String
highlight default link uxntalLabel Label
highlight default link uxntalReference Identifier
highlight default link uxntalPad PreProc
highlight default link uxntalNumber Number
highlight default link uxntalMacro Macro
highlight default link uxntalInclude Include
highlight default link uxntalBrace Delimiter
highlight default link uxntalOpcode Statement
highlight default link uxntalNested Comment
highlight default link uxntalComment Comment
let b:current_syntax = 'uxntal'
