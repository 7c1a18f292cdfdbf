" Vim syntax of Skywriting, the script language of ciel: docs/LANGUAGE.md has its tokens, and the table of executors.
if exists("b:current_syntax")
  finish
endif

syntax case match

syntax keyword skyStatement return
syntax keyword skyConditional if else
syntax keyword skyRepeat while do for in
syntax keyword skyConstant true false null
syntax keyword skyWord spawn spawn_exec exec ref len keys has range

syntax keyword skyTodo TODO FIXME XXX contained
" A text ends on its line; a backslash before another character than these five is refused, and is shown so.
syntax match skyBadEscape "\\." contained
syntax match skyEscape "\\[\"\\ntr]" contained
syntax region skyText start=+"+ skip=+\\.+ end=+"+ oneline contains=skyBadEscape,skyEscape,@Spell

syntax match skyNumber "\<\d\+\>"
syntax match skyName "\<\h\w*\>"
syntax match skySign "||\|&&\|[<>=!+]\=[=]\|[-+*/%!<>=]"
syntax match skyComment "//.*$" contains=skyTodo,@Spell

" The name of an executor, as the first argument of exec and spawn_exec, and the name of a function that is declared.
syntax match skyExecutor +\%(\<\%(spawn_\)\=exec\s*(\s*\)\@<="\%(cat\|grep\|words\|split\|deal\|sort\|tally\|count\|sum\|head\|half\|same\)"+
syntax keyword skyFunction function nextgroup=skyDeclared skipwhite
syntax match skyDeclared "\<\h\w*\>" contained

highlight default link skyStatement Statement
highlight default link skyConditional Conditional
highlight default link skyRepeat Repeat
highlight default link skyConstant Constant
highlight default link skyWord Keyword
highlight default link skyFunction Keyword
highlight default link skyDeclared Function
highlight default link skyExecutor Special
highlight default link skyComment Comment
highlight default link skyTodo Todo
highlight default link skyText String
highlight default link skyEscape SpecialChar
highlight default link skyBadEscape Error
highlight default link skyNumber Number
highlight default link skySign Operator

let b:current_syntax = "sky"
