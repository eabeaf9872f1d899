" Names as words, comments, `gf` on an include word, and `:make`, which checks the source by uxn-check.
if exists('b:did_ftplugin')
  finish
endif
let b:did_ftplugin = 1
setlocal commentstring=(\ %s\ ) comments=
" Letters, digits, and _ - /, as they are in names and in full names of sublabels.
setlocal iskeyword=@,48-57,_,45,47
setlocal include=\\%(^\\\|\\s\\)\\@<=\\~ suffixesadd=.tal
setlocal includeexpr=UxntalIncluded(v:fname)
if !exists('current_compiler')
  compiler uxn
endif
let b:undo_ftplugin = 'setlocal commentstring< comments< iskeyword< include< suffixesadd< includeexpr< makeprg< errorformat<'
      \ . ' | unlet! b:current_compiler'

" The file of an include word: its path begins at the folder of the source that includes it, which is the folder of
" this file or one above it.
function! UxntalIncluded(name) abort
  let name = substitute(a:name, '^\~', '', '')
  let found = findfile(name, fnameescape(expand('%:p:h')) . ';')
  return empty(found) ? name : fnamemodify(found, ':p')
endfunction
