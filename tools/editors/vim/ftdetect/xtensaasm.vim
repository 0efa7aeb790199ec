" A file *.s is taken for this assembler's where its folder has a file *.tie or *.hex. Elsewhere a line says it:
" # vim: filetype=xtensaasm
function! s:HasNeighbours(folder) abort
  let l:folder = escape(a:folder, '*?[{`$\')
  return !empty(glob(l:folder . '/*.tie', 1)) || !empty(glob(l:folder . '/*.hex', 1))
endfunction

autocmd BufNewFile,BufRead *.s if s:HasNeighbours(expand('<afile>:p:h')) | set filetype=xtensaasm | endif
