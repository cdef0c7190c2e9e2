" A document that is formatted while it is typed, in Vim 8.2 or later.
"
"     :source PLACE/examples/editor/vortex.vim
"     :Vortex main.tex macros.tex text.tfm
"
" in the document's folder, with the words of `vortex serve`: the main file, then all that it reads. From then on each change of a buffer with
" one of these files is sent as an `edit`, and `locate` asks for the page that the cursor is on; the status line tells it, and how the last run
" ended. Nothing is written to the disk. PLACE is where vortex lies; VORTEX may name another program.
"
" This is a client that shows no pages: `page K` would bring them (docs/FORMATS.md), and vortex-live is one that does.

let s:program = empty($VORTEX) ? expand('<sfile>:p:h:h:h') . '/vortex' : $VORTEX
let s:names = []
let s:sent = {}     " the lines of each buffer that is followed, as they were sent
let s:ends = {}     " what ends its lines
let s:run = ''
let s:place = ''

function! VortexStatus() abort
  return s:place . ' of ' . s:run
endfunction

function! s:Answered(channel, line) abort
  if a:line =~# '^locate '
    let s:place = substitute(a:line, '^.\{-}: ', '', '')
  else
    let s:run = substitute(a:line, '^.\{-}: \|, resumed .*, reused \d\+', '', 'g')
  endif
  redrawstatus
endfunction

function! s:Send(request) abort
  if job_status(s:job) ==# 'run'
    call ch_sendraw(s:job, a:request)
  endif
endfunction

function! s:End(buffer) abort
  return getbufvar(a:buffer, '&fileformat') ==# 'dos' ? "\r\n" : "\n"
endfunction

" The bytes of lines, each with its end behind it.
function! s:Bytes(buffer, lines) abort
  return empty(a:lines) ? '' : join(a:lines, s:ends[a:buffer]) . s:ends[a:buffer]
endfunction

function! s:SendAll(buffer) abort
  let s:sent[a:buffer] = getbufline(a:buffer, 1, '$')
  let s:ends[a:buffer] = s:End(a:buffer)
  let bytes = s:Bytes(a:buffer, s:sent[a:buffer])
  call s:Send(printf("file %d %s\n%s\n", len(bytes), bufname(a:buffer), bytes))
endfunction

" The lines from `first` on, up to `before` as they were and up to `now` as they are, are what some changes, one behind the other, exchanged.
function! s:Changed(buffer, start, end, added, changes) abort
  let [first, before, now] = [a:changes[0].lnum, a:changes[0].end, a:changes[0].end + a:changes[0].added]
  for change in a:changes[1:]
    let more = max([change.end - now, 0])
    let [first, before, now] = [min([first, change.lnum]), before + more, now + more + change.added]
  endfor
  let lines = s:sent[a:buffer]
  let [old, new] = [lines[first - 1 : before - 2], now > first ? getbufline(a:buffer, first, now - 1) : []]
  let old = before > first ? old : []
  if len(lines) - len(old) + len(new) != getbufinfo(a:buffer)[0].linecount || s:End(a:buffer) !=# s:ends[a:buffer]
    " (an empty buffer has one line, and 'fileformat' may have changed)
    return s:SendAll(a:buffer)
  endif
  let place = first > 1 ? len(s:Bytes(a:buffer, lines[: first - 2])) : 0
  let [removed, put] = [len(s:Bytes(a:buffer, old)), s:Bytes(a:buffer, new)]
  call s:Send(printf("edit %d %d %d %s\n%s\n", place, removed, len(put), bufname(a:buffer), put))
  let s:sent[a:buffer] = (first > 1 ? lines[: first - 2] : []) + new + lines[before - 1 :]
endfunction

function! s:Locate() abort
  if has_key(s:sent, bufnr())
    call listener_flush()
    if s:End(bufnr()) !=# s:ends[bufnr()]
      call s:SendAll(bufnr())
    endif
    call s:Send(printf("locate %d %s\n", max([line2byte('.') + col('.') - 2, 0]), bufname()))
  endif
endfunction

function! s:Follow() abort
  if index(s:names, bufname()) >= 0
    if !has_key(s:sent, bufnr())
      call listener_add(function('s:Changed'))
    endif
    call s:SendAll(bufnr())
    call s:Locate()
  endif
endfunction

function! s:Start(...) abort
  let s:names = copy(a:000)
  let minute = 60 * str2nr(strftime('%H')) + str2nr(strftime('%M'))
  let words = [s:program, 'serve', '--date', strftime('%Y-%m-%d-') . minute, '--'] + s:names
  let s:job = job_start(words, {'in_mode': 'raw', 'out_mode': 'nl', 'out_cb': function('s:Answered'), 'err_io': 'null'})
  augroup vortex
    autocmd!
    autocmd BufReadPost,BufNewFile * call s:Follow()
    autocmd BufEnter * if !has_key(s:sent, bufnr()) | call s:Follow() | endif
    autocmd CursorMoved,CursorMovedI,TextChanged,TextChangedI * call s:Locate()
  augroup END
  set laststatus=2
  set statusline=%f\ %m%=%{VortexStatus()}\ \ %l,%c
  call s:Follow()
endfunction

command! -nargs=+ -complete=file Vortex call s:Start(<f-args>)
