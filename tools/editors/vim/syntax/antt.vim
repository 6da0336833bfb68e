" Definitions and proofs (.antt), and the clauses of .rt files.
if exists("b:current_syntax")
  finish
endif
scriptencoding utf-8

" A name is any run of characters but blanks and ( ) { } . ; , @ " « », so a keyword ends only at one of these.
let s:free = '\%(^\|[[:space:](){}.;,@"«»\[\]]\)\@1<='
let s:end = '\ze\%($\|[[:space:](){}.;,@"«»\[\]]\)'
function! s:words(group, words) abort
  execute 'syntax match ' . a:group . ' /' . s:free . '\%(' . a:words . '\)' . s:end . '/'
endfunction

call s:words('anttType', '\u[^[:space:](){}.;,@"«»]*')
call s:words('anttNumber', '\d[0-9a-fA-Fxob_]*')
call s:words('anttOperator', '[^[:alnum:][:space:](){}.;,@"«»_?\[\]]\+')
call s:words('anttKeyword', 'data\|record\|deriving\|module\|where\|use\|mod\|package\|open\|as\|mutual\|infix\|infixl\|infixr\|elim\|let\|in\|do\|then\|else\|if')
call s:words('anttKeyword', 'λ\|∀\|→\|↦\|=\|:\||')
call s:words('anttMark', 'pub\|abbrev\|unfoldable\|unfold\|unfolding\|pattern\|axiom\|ruleset')
call s:words('anttTactic', 'rw\|rw⁻¹\|simp\|search\|grw\|cc\|omega\|grind\|hlevel\|assumption\|first_of\|cap\|at\|arith')
call s:words('anttType', 'Type\|ℕ\|⊥\|⊤')
" The name that a line declares.
syntax match anttName /^\s*\%(\%(pub\|abbrev\|unfoldable\|pattern\|axiom\) \)*\zs[^[:space:](){}.;,@"«»|-][^[:space:](){}.;,@"«»]*\ze \%({[^}]*} \)\?: /
syntax region anttString start=/"/ skip=/\\./ end=/"/ oneline
syntax match anttComment /\%(^\|\s\)\@1<=--.*$/ contains=@Spell
syntax region anttComment start=/{-/ end=/-}/ contains=anttComment,@Spell

highlight default link anttKeyword Keyword
highlight default link anttMark StorageClass
highlight default link anttTactic Macro
highlight default link anttType Type
highlight default link anttName Function
highlight default link anttNumber Number
highlight default link anttOperator Operator
highlight default link anttString String
highlight default link anttComment Comment

syntax sync minlines=30
let b:current_syntax = "antt"
