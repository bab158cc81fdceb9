" Styles of maps. After `:compiler pirgesh` the command `:make` lists what `pirgesh lint` reports of the open file, and `:cnext` goes from
" place to place. A column is a character, which Vim takes as a byte: they are the same where no letter before it on the line is past ASCII.
if exists('current_compiler')
  finish
endif
let current_compiler = 'pirgesh'

CompilerSet makeprg=pirgesh\ lint\ %:S
CompilerSet errorformat=
      \%f:%l:%c:\ %trror:\ %m,
      \%f:%l:%c:\ %tarning:\ %m,
      \%f:%l:%c:\ %tote:\ %m,
      \%-G%*\\d\ errors\\,\ %*\\d\ warnings\ in\ %*\\d\ styles
