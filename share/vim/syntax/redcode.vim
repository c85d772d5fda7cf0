" Vim syntax of Redcode, as koth assembles it: what koth refuses is an error here, too.
if exists('b:current_syntax')
  finish
endif

syntax iskeyword a-z,A-Z,48-57,_
syntax sync minlines=1
syntax case ignore

" Where two items begin at one place the later one counts. What no item below takes is in no token.
syntax match redcodeBad /\S/
syntax match redcodeName /\h\w*/

syntax match redcodeOperator '&&\|||\|[!=<>]=\|[-+*/%<>!&()]'
syntax match redcodeMode /[#$@{}]/
syntax match redcodeOperandMode /[#$*@{<}>]/ contained
syntax match redcodeSeparator /[.:]/
syntax match redcodeSeparator /,/ nextgroup=redcodeOperandMode skipwhite
syntax match redcodeModifier /\.\s*\(AB\|BA\|A\|B\|F\|X\|I\)\>/ nextgroup=redcodeOperandMode skipwhite
syntax match redcodeNumber /\d\+/

syntax keyword redcodeOperation DAT MOV ADD SUB MUL DIV MOD JMP JMZ JMN DJN CMP SEQ SNE SLT SPL NOP
  \ nextgroup=redcodeOperandMode,redcodeModifier skipwhite
syntax keyword redcodeWord FOR ROF ORG END
syntax keyword redcodeWord EQU nextgroup=redcodeOperandMode,redcodeModifier skipwhite
syntax keyword redcodePspace LDP STP PIN

syntax case match
syntax keyword redcodePredefined CORESIZE MAXPROCESSES MAXCYCLES MAXLENGTH MINDISTANCE ROUNDS WARRIORS CURLINE
syntax case ignore

syntax match redcodeComment /;.*/ contains=@Spell
syntax match redcodeDirective /^\s*;redcode.*/
syntax match redcodeTitle /^\s*;\(name\|author\)\(\s.*\)\?$/ contains=redcodeTitleWord
syntax match redcodeTitleWord /^\s*;\(name\|author\)/ contained
syntax match redcodeDirective /^\s*;assert\(\s\|$\)/

highlight default link redcodeBad Error
highlight default link redcodePspace Error
highlight default link redcodeOperator Operator
highlight default link redcodeMode Special
highlight default link redcodeOperandMode Special
highlight default link redcodeModifier Type
highlight default link redcodeNumber Number
highlight default link redcodeOperation Statement
highlight default link redcodeWord PreProc
highlight default link redcodePredefined Constant
highlight default link redcodeComment Comment
highlight default link redcodeDirective PreProc
highlight default link redcodeTitle String
highlight default link redcodeTitleWord PreProc

let b:current_syntax = 'redcode'
