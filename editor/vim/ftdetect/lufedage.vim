" A file is one of Lufedage where its name says so, or where its first line that isn't passed over is IMSCTRL.
function! s:Look() abort
  for line in getline(1, 50)
    if line =~# '^\%(\*.*\)\?$'
      continue
    endif
    if line =~# '^IMSCTRL\>'
      setlocal filetype=lufedage
    endif
    return
  endfor
endfunction

autocmd BufRead,BufNewFile *.lufedage setfiletype lufedage
autocmd BufRead *.txt call s:Look()
