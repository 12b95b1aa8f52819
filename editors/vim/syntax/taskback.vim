" Task programs and sessions of Taskback: docs/NOTATION.md and docs/COMMANDS.md.
if exists("b:current_syntax")
  finish
endif

syntax keyword taskbackStatement let load store print
syntax keyword taskbackBlock body task taskwait taskgroup if else while end
syntax keyword taskbackCells cells cell
syntax keyword taskbackDepend depend contained
syntax keyword taskbackType in out inout mutexinoutset inoutset all contained
syntax match taskbackItem /\<depend\s\+\w\+/ contains=taskbackDepend,taskbackType
syntax match taskbackName /\(\<body\s\+\|\<task\s\+\)\@<=\h\w*/
syntax match taskbackRegister /\<r\([0-9]\|1[0-5]\)\>/
syntax match taskbackNumber /\(^\|\s\)\@<=-\?\d\+\(\s\|$\)\@=/
syntax match taskbackStep /\(^\|\s\)\@<=0\(\.\d\+\)*#\d\+/
syntax match taskbackTask /\(^\|\s\)\@<=0\(\.\d\+\)\+\(\s\|$\)\@=/
syntax match taskbackOperator /\s\@<=\(==\|!=\|<=\|[-+*<]\)\s\@=/
syntax match taskbackCommand /^\s*\(step\|run\|go\|undo\|roll\|rolltask\|rollcell\|rollprint\|break\|clear\|breaks\|tasks\|out\|ready\|waits\|deps\|hist\|why\|who\|races\|causes\|edges\)\>/
syntax match taskbackLine /^\s*---\s*\($\|#\)\@=/
syntax match taskbackComment /\(^\|\s\)\@<=#.*$/

highlight default link taskbackStatement Function
highlight default link taskbackBlock Keyword
highlight default link taskbackCells Type
highlight default link taskbackDepend PreProc
highlight default link taskbackType StorageClass
highlight default link taskbackName Identifier
highlight default link taskbackRegister Special
highlight default link taskbackNumber Number
highlight default link taskbackStep Constant
highlight default link taskbackTask Constant
highlight default link taskbackOperator Operator
highlight default link taskbackCommand Statement
highlight default link taskbackLine Title
highlight default link taskbackComment Comment

let b:current_syntax = "taskback"
