" Vim syntax file: certificates of Livingstone.
if exists('b:current_syntax')
  finish
endif

" What stands later in this file wins where two match at one place.
syntax match lvCertificateError '[^ ]'
syntax match lvCertificateNumber '-\?\%(0\|[1-9][0-9]*\)\ze\%([^0-9A-Za-z_]\|$\)'
syntax match lvCertificateKeyword ' \zs\%(diagnosis\|recovery\|now\|next\|conflict\|listed\)\>'
syntax match lvCertificateWord '^\%(certificate\|k\|state\|control\|fact\|listed\|now\|next\|conflict\|clause\|split\|recovery\|good\|proof\|counter\|end\)\>'
syntax match lvCertificateName '^model .*$'
syntax match lvCertificateGoal '^goal .*$'

highlight default link lvCertificateError Error
highlight default link lvCertificateNumber Number
highlight default link lvCertificateKeyword Keyword
highlight default link lvCertificateWord Statement
highlight default link lvCertificateName Identifier
highlight default link lvCertificateGoal String

let b:current_syntax = 'livingstone_certificate'
