" Colours for Lufedage: system definitions with their scripts and formats, and session lines.
" Copy the folders syntax and ftdetect to ~/.vim, or `:set filetype=lufedage` where this stands on 'runtimepath'.
if exists("b:current_syntax")
  finish
endif
syntax case match
syntax iskeyword @,48-57,$,#,@-@

syntax match lufedageComment "^\*.*$"

" The definition.
syntax match lufedageMacro "^\%(IMSCTRL\|DBD\|SEGM\|APPLCTN\|PCB\|TRANSACT\|NAME\|REGION\|FMT\|FMTEND\|DFLD\|MSG\|SEG\|MFLD\|PROGRAM\|ENDPROG\|END\)\>"
syntax match lufedageOperand "\%([ ,]\)\@<=\%(QBYTES\|LOGS\|NAME\|ROOTS\|SECTORS\|PARENT\|KEY\|BYTES\|PSB\|TYPE\|DBDNAME\|PROCOPT\|LTERM\|MODIFY\|CODE\|MSGTYPE\|PRTY\|PROCLIM\|SPA\|SEGNO\|SEGSIZE\|SERIAL\|FORMAT\|CLASS\|POS\|LTH\|SRC\|JUST\|FILL\|LIT\)="me=e-1
syntax region lufedageText start=+'+ end=+'+ oneline
syntax region lufedageText start=+"+ end=+"+ oneline

" Scripts.
syntax match lufedageStatement "^\%(LABEL\|SET\|WORD\|CUT\|PAD\|ADD\|LESS\|IF\|GOTO\|CALL\|ABEND\)\>"
syntax match lufedageStatement "\%(^IF .*\)\@<= GOTO\>"
syntax match lufedageFunction "\%(^CALL \)\@<=\%(GU\|GN\|GNP\|GHU\|GHN\|GHNP\|ISRT\|REPL\|DLET\|PURG\|CHNG\|ROLB\|ROLL\)\>"
syntax match lufedageStatus "\<STATUS\>"

" Session lines. A text is all that follows the number.
syntax match lufedageAsked "^\%(RECV\|ACK\|TURN\|QUIET\|POWER IN\|POWER\)\>"
syntax match lufedageInput "^\%(IN\|SCREEN\) \S\+ \d\+.*$" contains=lufedageInputWord
syntax match lufedageInputWord "^\%(IN\|SCREEN\) \S\+ \d\+" contained
syntax match lufedageFurther "^+.*$" contains=lufedageFurtherSign
syntax match lufedageFurtherSign "^+" contained
syntax match lufedageCommand "^/\%(START\|STOP\|ASSIGN\|DISPLAY\|CHECKPOINT\|DEQUEUE\|EXIT\|ERESTART\|NRESTART\)\>"
syntax match lufedageCommandWord "\%(^/.*\)\@<= \%(TRANSACTION\|LTERM\|CLASS\|PRIORITY\|ACTIVE\|FREEZE\|PURGE1\|PURGE\|CHECKPOINT\)\>"

" What breaks a rule unseen: a tab, and a blank at the front of a line.
syntax match lufedageUnseen "\t"
syntax match lufedageUnseen "^ \+"

highlight default link lufedageComment Comment
highlight default link lufedageMacro Keyword
highlight default link lufedageOperand Identifier
highlight default link lufedageText String
highlight default link lufedageStatement Statement
highlight default link lufedageFunction Function
highlight default link lufedageStatus Special
highlight default link lufedageAsked Keyword
highlight default link lufedageInput String
highlight default link lufedageInputWord Keyword
highlight default link lufedageFurther String
highlight default link lufedageFurtherSign Keyword
highlight default link lufedageCommand PreProc
highlight default link lufedageCommandWord PreProc
highlight default link lufedageUnseen Error

let b:current_syntax = "lufedage"
