" Vim syntax file: models of Livingstone.
if exists('b:current_syntax')
  finish
endif

" What stands later in this file wins where two match at one place.
syntax match lvModelError '[^ \t]'
syntax match lvModelName '[A-Za-z_][A-Za-z0-9_]*'
syntax match lvModelOperator '<=>\|=>\|->\|[=!&|().]'
syntax match lvModelNumber '[0-9]\+\ze\%([^0-9A-Za-z_]\|$\)'
syntax match lvModelConstant '\<\%(true\|false\|mode\)\>'
syntax match lvModelKeyword '\<\%(when\|cost\|repair\)\>'
syntax match lvModelError '^\s*[A-Za-z_][A-Za-z0-9_]*'
syntax match lvModelWord '^\s*\%(model\|domain\|type\|control\|variable\|observable\|mode\|law\|in\|step\|fault\|end\|part\|price\|version\)\>'
syntax match lvModelComment '#.*$'

highlight default link lvModelError Error
highlight default link lvModelName Identifier
highlight default link lvModelOperator Operator
highlight default link lvModelNumber Number
highlight default link lvModelConstant Constant
highlight default link lvModelComment Comment
highlight default link lvModelWord Statement
highlight default link lvModelKeyword Keyword

let b:current_syntax = 'livingstone_model'
