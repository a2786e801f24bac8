" Vim syntax file: sessions of Livingstone.
if exists('b:current_syntax')
  finish
endif

" What stands later in this file wins where two match at one place.
syntax match lvSessionError '[^ \t]'
syntax match lvSessionName '[A-Za-z_][A-Za-z0-9_]*'
syntax match lvSessionOperator '<=>\|=>\|->\|[=!&|().]'
syntax match lvSessionNumber '[0-9]\+\ze\%([^0-9A-Za-z_]\|$\)'
syntax match lvSessionConstant '\<\%(true\|false\|mode\)\>'
syntax match lvSessionError '^\s*[A-Za-z_][A-Za-z0-9_]*'
syntax match lvSessionWord '^\s*\%(track\|budget\|command\|release\|observe\|retract\|goal\|drop\|diagnose\|recover\|more\|conflicts\|certificate\|commit\|labels\|states\|reset\|quit\|probe\|test\|window\)\>'
syntax match lvSessionComment '#.*$'

highlight default link lvSessionError Error
highlight default link lvSessionName Identifier
highlight default link lvSessionOperator Operator
highlight default link lvSessionNumber Number
highlight default link lvSessionConstant Constant
highlight default link lvSessionComment Comment
highlight default link lvSessionWord Statement

let b:current_syntax = 'livingstone_session'
