" Rattle (.rt): Rust's words, with clauses in the language of proofs.
if exists("b:current_syntax")
  finish
endif
scriptencoding utf-8
syntax include @antt syntax/antt.vim
unlet! b:current_syntax

syntax keyword rattleKeyword as break const continue crate dyn else enum extern fn for if impl in let loop match mod move mut pub ref return self Self static
syntax keyword rattleKeyword struct super trait type unsafe use where while
syntax keyword rattleBoolean true false
syntax keyword rattleVariant Some None Ok Err
syntax match rattleType /\<\u\k*\>/
syntax keyword rattleType bool char str u8 u16 u32 u64 u128 usize i8 i16 i32 i64 i128 isize f32 f64
syntax match rattleMacro /\<\h\w*!/
syntax match rattleNumber /\<\d[0-9a-fA-Fxob_]*\%([iu]\%(8\|16\|32\|64\|128\|size\)\)\?\>/
syntax match rattleLifetime /'\h\w*\>'\@!/
syntax match rattleName /\%(\<fn\s\+\)\@<=\h\w*/
syntax region rattleString start=/b\?"/ skip=/\\./ end=/"/
syntax match rattleString /b\?'\%([^\\']\|\\[^']\+\|\\'\)'/
syntax region rattleAttribute matchgroup=rattleAttribute start=/#!\?\[/ end=/\]/ contains=rattleString,rattleBrackets
syntax region rattleBrackets start=/\[/ end=/\]/ contained contains=rattleString,rattleBrackets
syntax match rattleComment +//.*$+ contains=@Spell
syntax match rattleDoc +//[/!].*$+ contains=@Spell

" A clause, `requires NAME { .. }`, and a ghost item: what stands in their braces is antt. `ghost use` ends at its semicolon.
syntax region rattleClause matchgroup=rattleHead start=/\<\%(requires\>\|ensures\>\|prove!\)\%(\s\+\h\w*\)\?\s*{/ end=/}/ contains=@antt,rattleBraces
syntax region rattleClause matchgroup=rattleHead start=/\<ghost\s\+\h\w*\%(\s*=\)\?\s*{/ end=/}/ contains=@antt,rattleBraces
syntax region rattleClause matchgroup=rattleHead start=/\<ghost\s\+use\>/ end=/;/ contains=@antt
syntax region rattleBraces start=/{/ end=/}/ contained transparent contains=@antt,rattleBraces

highlight default link rattleKeyword Keyword
highlight default link rattleHead PreProc
highlight default link rattleBoolean Boolean
highlight default link rattleVariant Constant
highlight default link rattleType Type
highlight default link rattleMacro Macro
highlight default link rattleNumber Number
highlight default link rattleLifetime Special
highlight default link rattleName Function
highlight default link rattleString String
highlight default link rattleAttribute PreProc
highlight default link rattleComment Comment
highlight default link rattleDoc SpecialComment

syntax sync fromstart
let b:current_syntax = "rattle"
