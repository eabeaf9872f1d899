" Labels, macros and pads at the left edge, sublabels one step in, code one step behind its label, what braces hold one
" step more; a line that goes on with a comment stays. As uxn-fmt has it, a label that stands deeper than its pad stays
" beneath it, a sublabel that stands deeper than another beneath that one, one at the left edge over indented code like
" a label, and code that stands no deeper than the sublabel before it does not belong to it.
if exists('b:did_indent')
  finish
endif
let b:did_indent = 1
setlocal indentexpr=UxntalIndent()
setlocal indentkeys=o,O,!^F,0},0@,0&,0\|,0%
let b:undo_indent = 'setlocal indentexpr< indentkeys<'

" A word that opens a brace.
" facts: words
let s:opener = '^[,_.;=!?-]\={$'
" facts end

" The words of a line without its comments.
function! s:Words(line) abort
  return split(substitute(a:line, '\%(^\|\s\)(.\{-}\%(\s)\%(\s\|$\)\@=\|$\)', ' ', 'g'))
endfunction

" How many braces the words leave open; one that closes at the start counts for the line itself.
function! s:Opened(words) abort
  let closed = len(filter(copy(a:words), "v:val ==# '}' || v:val ==# ']'"))
  let opened = len(filter(copy(a:words), "v:val =~# s:opener || v:val ==# '['"))
  return opened - closed + (get(a:words, 0, '') =~# '^[]}]$')
endfunction

" Whether a line begins within a comment.
function! s:GoesOn(number) abort
  return a:number > 1 && synIDattr(synID(a:number, 1, 1), 'name') =~# 'Comment\|Nested' && getline(a:number) !~# '^('
endfunction

" The line with words before this one; 0 without one.
function! s:Before(number) abort
  let before = prevnonblank(a:number - 1)
  while before > 0 && (s:GoesOn(before) || empty(s:Words(getline(before))))
    let before = prevnonblank(before - 1)
  endwhile
  return before
endfunction

" The nearest line before this one whose first word matches, and that is indented less than so many columns.
function! s:Above(number, pattern, columns) abort
  let above = s:Before(a:number)
  while above > 0 && !(s:Words(getline(above))[0] =~# a:pattern && indent(above) < a:columns)
    let above = s:Before(above)
  endwhile
  return above
endfunction

function! s:LabelIndent() abort
  let above = s:Above(v:lnum, '.', 1)
  let is_beneath = indent(v:lnum) > 0 && above > 0 && getline(above) =~# '^|' && getline(above) !~# '\s@'
  return is_beneath ? shiftwidth() : 0
endfunction

function! s:SublabelIndent() abort
  let next = nextnonblank(v:lnum + 1)
  if indent(v:lnum) == 0 && indent(next) > 0 && getline(next) !~# '^\s*[]@|%}]'
    return 0
  endif
  let label = s:Above(v:lnum, '^[@|]', 9999)
  let sublabel = s:Above(v:lnum, '^&', indent(v:lnum))
  let above = max([label, sublabel])
  return above > 0 ? indent(above) + shiftwidth() : 0
endfunction

" The indentation of code behind a line.
function! s:Behind(before) abort
  let words = s:Words(getline(a:before))
  let opened = s:Opened(words) * shiftwidth()
  if words[0] =~# '^[@&]' || words[0] =~# '^|' && !empty(filter(copy(words), "v:val =~# '^@'"))
        \ || len(words) > 1 && words[-1] =~# '^&' && words[0] !~# '^[|%~]'
    return indent(a:before) + shiftwidth() + opened
  elseif words[0] =~# '^[|~]'
    return 0
  endif
  return max([0, indent(a:before) + opened])
endfunction

function! s:CodeIndent(words) abort
  let before = s:Before(v:lnum)
  if before == 0
    return 0
  endif
  let due = s:Behind(before)
  let old = indent(v:lnum)
  if get(a:words, 0, '') =~# '^[]}]$'
    return max([0, due - shiftwidth()])
  elseif 0 < old && old < due && s:Words(getline(before))[0] !~# '^[@|%~]' && s:Opened(s:Words(getline(before))) <= 0
    return max([shiftwidth(), old / shiftwidth() * shiftwidth()])
  endif
  return due
endfunction

function! UxntalIndent() abort
  if s:GoesOn(v:lnum)
    return -1
  endif
  let words = s:Words(getline(v:lnum))
  if empty(words) && getline(v:lnum) =~# '^\s*('
    " a comment stands as the line behind it does
    let next = v:lnum + 1
    while next <= line('$') && getline(next) !~# '^\s*$' && (s:GoesOn(next) || empty(s:Words(getline(next))))
      let next += 1
    endwhile
    let words = s:Words(getline(next))
  endif
  let first = get(words, 0, '')[0]
  if first ==# '|' || first ==# '%' || first ==# '~' && indent(v:lnum) == 0
    return 0
  elseif first ==# '@'
    return s:LabelIndent()
  endif
  return first ==# '&' ? s:SublabelIndent() : s:CodeIndent(words)
endfunction
