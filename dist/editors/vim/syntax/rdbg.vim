" Vim syntax file of rdbg: a program, a line %%, and command lines.
if exists('b:current_syntax')
  finish
endif

" A program.
syntax keyword rdbgKeyword process var when
syntax keyword rdbgAction send recv
syntax keyword rdbgTruth true false
syntax keyword rdbgOperatorWord and or not
syntax keyword rdbgCount sent got
syntax match rdbgNumber "\<\d\+\>"
syntax match rdbgOperator ":=\|!=\|<=\|>=\|[-+*/%<>=]"
syntax match rdbgProcessName "\%(\<process\s\+\)\@<=[a-z][a-z0-9_]*"
" A byte that begins no token.
syntax match rdbgFault "[^-a-z0-9_{}()[\];:,=!<>+*/% \t]"
syntax match rdbgField "[])a-z0-9_]\@<=\.\ze[a-z]"

" The model notation. Its words are not reserved: each is one only in its place.
syntax match rdbgNotation "\<\%(const\|let\|enum\|message\)\>\ze\s\+[a-z]"
syntax match rdbgNotation "\<\%(else\)\>\ze\s*:"
syntax match rdbgNotation "\<\%(for\)\>\ze\s\+[a-z][a-z0-9_]*\s*:"
syntax match rdbgNotation "\%([])a-z0-9_]\s\+\)\@<=\<\%(where\)\>\ze\s\+[-(a-z0-9]"
syntax match rdbgNotationForm "\<\%(all\|some\|sum\|at_least\)\>\ze\s*("
syntax match rdbgLabel "\<[a-z][a-z0-9_]*\>\ze\s*:\s*\%(when\|else\)\>"
syntax match rdbgRange "\.\."
syntax match rdbgComment "#.*$" contains=@Spell

" The command lines, from the line %% on.
syntax region rdbgSession matchgroup=rdbgEnd start="^%%\r\?$" end="\%$" contains=rdbgComment,rdbgReply,rdbgSeat,rdbgCommand,rdbgQuestion,rdbgOwnWord,rdbgBetween,rdbgPredicate,rdbgNumber,rdbgNotation,rdbgRange
syntax match rdbgReply "^\s*>.*$" contained contains=rdbgRefused,rdbgHalted
syntax match rdbgRefused "\%(^\s*>\s*\)\@<=no\>.*$" contained
syntax match rdbgHalted "\<halted \S\+\s*$" contained
syntax match rdbgSeat "^\s*\d\+\ze\s" contained
syntax match rdbgCommand "\%(\%(^\s*\|\s:\s\+\)\%(\d\+\s\+\)\?\|;\s\+\|\<batch\s\+\)\@<=\%(step\|next\|undo\|redo\|rollback\|break\|goto\|clear\|pass\|arm\|batch\|back\)\>" contained
syntax match rdbgQuestion "\%(\%(^\s*\|\s:\s\+\)\%(\d\+\s\+\)\?\)\@<=\%(vars\|chan\|clock\|place\|can\|cut\|why\|breaks\)\>" contained
syntax match rdbgOwnWord "\%(^\s*\)\@<=\%(help\|on\|list\|state\|how\|from\|line\|draw\|session\|quit\|exit\|q\)\>" contained
syntax match rdbgBetween "\s\zs;\ze\s" contained
syntax region rdbgPredicate start="(" end=")" oneline contained contains=rdbgPredicate,rdbgTruth,rdbgOperatorWord,rdbgCount,rdbgNumber,rdbgOperator,rdbgNotation,rdbgNotationForm,rdbgRange,rdbgField

syntax sync fromstart

highlight default link rdbgKeyword Keyword
highlight default link rdbgAction Statement
highlight default link rdbgTruth Boolean
highlight default link rdbgOperatorWord Operator
highlight default link rdbgOperator Operator
highlight default link rdbgCount Function
highlight default link rdbgNumber Number
highlight default link rdbgProcessName Identifier
highlight default link rdbgNotation Keyword
highlight default link rdbgNotationForm Function
highlight default link rdbgLabel Label
highlight default link rdbgRange Operator
highlight default link rdbgField Operator
highlight default link rdbgFault Error
highlight default link rdbgEnd PreProc
highlight default link rdbgComment Comment
highlight default link rdbgReply String
highlight default link rdbgRefused WarningMsg
highlight default link rdbgHalted Special
highlight default link rdbgSeat Number
highlight default link rdbgCommand Statement
highlight default link rdbgQuestion Function
highlight default link rdbgOwnWord Function
highlight default link rdbgBetween Delimiter

let b:current_syntax = 'rdbg'
