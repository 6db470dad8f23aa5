" The script language of lvish; made by tools/grammars.py.
if exists("b:current_syntax")
  finish
endif
syn case match
syn iskeyword 33-126
setlocal commentstring=#\ %s
syn keyword lvishDeclaration cell set max map pair pool
syn keyword lvishBlock proc end if else while
syn keyword lvishStatement let put get fork call handle freeze
syn keyword lvishRead any in has least
syn keyword lvishFreeze after each
syn keyword lvishVersion lvish tally total
syn match lvishNumber /\S\@1<!-\?\d\+\S\@!/
syn match lvishOperator /\S\@1<![-+*\/%<=]\S\@!/
syn match lvishComment /\S\@1<!#.*$/ contains=@Spell
hi def link lvishDeclaration Type
hi def link lvishBlock Conditional
hi def link lvishStatement Statement
hi def link lvishRead Operator
hi def link lvishFreeze Operator
hi def link lvishVersion PreProc
hi def link lvishNumber Number
hi def link lvishOperator Operator
hi def link lvishComment Comment
let b:current_syntax = "lvish"
