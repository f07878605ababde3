" Scripts of bq: statements, rows and comments. Copy vim/ into ~/.vim (or its two folders beside those that stand there).
if exists("b:current_syntax")
  finish
endif

syntax case ignore
syntax keyword bqStatement CREATE STREAM QUERY EXPLAIN DROP CHECKPOINT RESUME
syntax keyword bqClause AS SELECT DISTINCT FROM WHERE AND IN SHARED
" known before QUERY alone; elsewhere it is a name
syntax match bqCompact /\<COMPACT\ze\s\+QUERY\>/
" known at the front of a line alone, and not before a comma; TO behind LOCK and its number alone
syntax match bqLock /^\s*\zs\(UN\)\?LOCK\>\ze\s*\($\|;\|[+-]\?\d\|TO\>\)/ nextgroup=bqLockNumber,bqTo skipwhite
syntax match bqLockNumber /[+-]\?\d\+\>/ contained nextgroup=bqTo skipwhite
syntax match bqTo /\<TO\>/ contained
syntax case match

" the word before a comma at the front of a line is the stream of a row
syntax match bqRow /^\s*\h\w*\ze\s*,/
syntax match bqNumber /\(\w\)\@<![+-]\?\d\+\>/
syntax match bqOperator /<=\|>=\|<>\|[<=>]/
syntax match bqRange /\.\s*\./
" a stream or a column that a point joins
syntax match bqColumn /\h\w*\s*\.\s*\h\w*/
syntax match bqComment /^\s*--.*$/
" marks that no statement has
syntax match bqFault /==\|=<\|=>\|!=\|<<\|>>\|["'`*/%&|!]/

highlight default link bqStatement Statement
highlight default link bqClause Keyword
highlight default link bqCompact Keyword
highlight default link bqLock Statement
highlight default link bqTo Keyword
highlight default link bqLockNumber Number
highlight default link bqRow Type
highlight default link bqNumber Number
highlight default link bqOperator Operator
highlight default link bqRange Operator
highlight default link bqColumn Identifier
highlight default link bqComment Comment
highlight default link bqFault Error

let b:current_syntax = "bq"
