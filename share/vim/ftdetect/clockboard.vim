" SPDX-License-Identifier: Apache-2.0 OR MIT
" Traces of clockboard, by the ends of their names or by their first line.
autocmd BufNewFile,BufRead *.trace call s:Detect()
autocmd BufNewFile,BufRead *.clockboard setfiletype clockboard

function! s:Detect() abort
  for line in getline(1, 20)
    if line =~# '^clockboard \d'
      setfiletype clockboard
      return
    endif
  endfor
endfunction
