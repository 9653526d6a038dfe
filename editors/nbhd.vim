" Vim syntax file: node programs of nbhd. The words are those of docs/LANGUAGE.md.
" Copy it into ~/.vim/syntax/ and say :setlocal syntax=nbhd in a program.
if exists("b:current_syntax")
  finish
endif

syntax case match
syntax iskeyword a-z,A-Z,48-57

" What is no token. Later matches and all keywords go before it.
syntax match nbhdError "[^ \t\r(),=]"
syntax match nbhdError "\<[A-Za-z0-9]\+\>"

syntax match nbhdNumber "\<\d\+\>"
syntax match nbhdRegister "\<r\d\>"
syntax match nbhdComment "#.*$" contains=@Spell

syntax keyword nbhdHeader rounds channels registers
syntax keyword nbhdPart start round send left right finish
syntax keyword nbhdInput id L R
syntax keyword nbhdConditional if
syntax keyword nbhdOperation not and or xor shl shr add sub
syntax keyword nbhdOperation min max ldb bit eq ne lt le

highlight default link nbhdComment Comment
highlight default link nbhdNumber Number
highlight default link nbhdRegister Identifier
highlight default link nbhdHeader PreProc
highlight default link nbhdPart Statement
highlight default link nbhdInput Constant
highlight default link nbhdConditional Conditional
highlight default link nbhdOperation Function
highlight default link nbhdError Error

let b:current_syntax = "nbhd"
