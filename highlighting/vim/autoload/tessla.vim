" What `:make` has found is made to fit the buffer: its columns count characters, and those of Vim count bytes.

" The list of a window, or the one of all where it is 0.
function tessla#columns(window) abort
  if get(b:, 'current_compiler', '') !=# 'tessla'
    return
  endif
  let l:entries = a:window ? getloclist(a:window) : getqflist()
  call map(l:entries, 's:fitting(v:val)')
  call s:gather(l:entries)
  if a:window
    call setloclist(a:window, [], 'r', {'items': l:entries})
  else
    call setqflist([], 'r', {'items': l:entries})
  endif
endfunction

" An entry of a place, in the buffer that was checked: its name may have been written with escapes.
function s:fitting(entry) abort
  if a:entry.valid && a:entry.lnum > 0
    let l:line = get(getbufline('%', a:entry.lnum), 0, '')
    let l:before = byteidx(l:line, a:entry.col - 1)
    let a:entry.bufnr = bufnr('%')
    let a:entry.col = (l:before < 0 ? strlen(l:line) : l:before) + 1
  endif
  return a:entry
endfunction

" Cause and remedy of a cycle were said below its parts, and belong to the message above them.
function s:gather(entries) abort
  for l:entry in a:entries
    if l:entry.type ==# 'E'
      let l:message = l:entry
    elseif l:entry.type ==# 'I' && exists('l:message')
      let [l:entry.text; l:helps] = split(l:entry.text, "\n")
      let l:message.text = join([l:message.text] + l:helps, "\n")
    endif
  endfor
endfunction
