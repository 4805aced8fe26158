" Vim for simulations of tricks: source this file from your vimrc. S_defines open as C++, and
"   :make check rover.S_define rover_input.py
" jumps to the line of a refusal, where examples/explain of the repository is on the path.
augroup tricks
  autocmd!
  autocmd BufRead,BufNewFile *.S_define,S_define setfiletype cpp
  autocmd BufRead,BufNewFile *.S_define,S_define,*_input.py setlocal makeprg=explain errorformat=%f:%l:\ %m
augroup END
