" Task programs and sessions of Taskback; Vim itself takes .task for files of another program.
autocmd BufRead,BufNewFile *.task,*.session set filetype=taskback
