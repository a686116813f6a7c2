" Vim syntax file for scripts of the program arrange, about arrangements of hyperplanes.
if exists("b:current_syntax")
  finish
endif

syntax case match
syntax iskeyword @,48-57,_
" A name is any word; what begins a line, and what stands behind `let X =` and `limit`, is the language's.
syntax match arrangeName /\<\a\w*\>/
syntax match arrangeCommand /^\s*\(field\|let\|limit\)\>/
syntax match arrangeCommand /\(^\s*limit\s\+\)\@<=\(pairs\|degree\)\>/
syntax match arrangeQuestion /^\s*\(hyperplanes\|point\|rank\|flats\|poincare\|characteristic\|triple\|circuits\|nbc\|normal\|aomoto\|gb\|der\|resolve\|free\)\>/
syntax match arrangeBuild /\(=\s*\)\@<=\(forms\|cone\|typeA\|typeB\|typeD\|boolean\|graphic\|delete\|restrict\)\>/
syntax match arrangeGenerator /\(^\s*normal\s.*\)\@<=\<e\d\{1,10}\>/
syntax match arrangeNumber /\<\d\{1,10}\>/
syntax match arrangeOperator /[-+*=,]/
syntax match arrangeBracket /[[\]]/
syntax match arrangeError /\<\d\{11,}\>/
syntax match arrangeComment /#.*$/ contains=@Spell

highlight default link arrangeCommand Keyword
highlight default link arrangeQuestion Function
highlight default link arrangeBuild Type
highlight default link arrangeName Identifier
highlight default link arrangeGenerator Special
highlight default link arrangeNumber Number
highlight default link arrangeOperator Operator
highlight default link arrangeBracket Delimiter
highlight default link arrangeError Error
highlight default link arrangeComment Comment

let b:current_syntax = "arrange"
