" Scripts of cobench: commands, names, numbers, files, texts and comments.
if exists('b:current_syntax')
  finish
endif
syntax case match

syntax match cobenchComment /^\s*#.*$/
syntax match cobenchFile /<.*$/ contains=cobenchBehind
syntax match cobenchBehind /\s#.*$/ contained
syntax match cobenchNumber /\v<[0-9]+>/
syntax match cobenchHex /\v<0[xX][0-9A-Fa-f]+>/
syntax keyword cobenchWord set power nmt on off mandatory optional
syntax match cobenchWrong /\v^\s*[^# \t<\[;=]+/
syntax match cobenchSection /^\[.*\]\s*$/
syntax match cobenchKey /\v^[A-Za-z0-9]+\s*\ze\=/
syntax match cobenchCommand /\v^\s*%(version|bitrate|horizon|manager|time-period|sync-counter|eds|drop-eds|node|need|drop-node|param|unparam|message|start|drop-message|source|unsource|sink|unsink|receive|unreceive|event|drop-event|dcf|cdcf|diag|trace|project)>/
" The text of a parameter, and that of an event that sets an entry.
syntax match cobenchParam /\v(^\s*param\s+\S+\s+\S+\s+\S+\s+)@<=\S.*$/
syntax match cobenchSet /\v(^\s*event\s+\S+\s+\S+\s+set\s+\S+\s+\S+\s+\S+\s+)@<=\S.*$/

highlight default link cobenchComment Comment
highlight default link cobenchBehind Comment
highlight default link cobenchFile Include
highlight default link cobenchNumber Number
highlight default link cobenchHex Number
highlight default link cobenchWord Keyword
highlight default link cobenchWrong Error
highlight default link cobenchSection Structure
highlight default link cobenchKey Identifier
highlight default link cobenchCommand Statement
highlight default link cobenchParam String
highlight default link cobenchSet String

let b:current_syntax = 'cobench'
