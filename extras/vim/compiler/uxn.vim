" Checks the source of the buffer: :compiler uxn, then :make. Needs uxn-check and uxn in PATH. One that is included
" is assembled by the source that includes it: :setlocal makeprg=uxn-check\ main.tal. The second format is that of `uxn`
" itself, of a word in an included file.
let current_compiler = 'uxn'
CompilerSet makeprg=uxn-check\ %:p:S
CompilerSet errorformat=%f:%l:%c:\ %m,source\ %f\ %l:%c:\ %m
