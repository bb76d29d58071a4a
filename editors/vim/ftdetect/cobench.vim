" Scripts of cobench: the ending .cob, and .txt that has a command of theirs among its first rows.
autocmd BufRead,BufNewFile *.cob setfiletype cobench
autocmd BufRead *.txt if match(getline(1, 40), '\v^(eds|node|manager|message|version|bitrate|horizon) ') >= 0 | setlocal filetype=cobench | endif
