" Programs of interaction nets (docs/use/LANGUAGE.md).
if exists('b:current_syntax')
  finish
endif
syntax match inetVariable /\<\K\k*\>/
" A name before a bracket is a symbol's, one before a sign a type's.
syntax match inetSymbol /\<\K\k*\>\ze\_s*[([]/
syntax match inetType /\<\K\k*\>\ze\_s*[+-]/
syntax match inetSymbol /\%(\<symbol\_s\+\)\@20<=\K\k*\>/
syntax match inetWord /\<with\>\ze\_s*{/
syntax keyword inetWord symbol rule net
syntax match inetOperator /><\|[~+-]/
syntax match inetComment /#.*$/ contains=@Spell
syntax match inetDeclaredType /\<\K\k*\>/ contained
syntax region inetTypes matchgroup=inetWord start=/\<type\>/ matchgroup=NONE end=/;/ end=/\ze\<\%(type\|symbol\|rule\|net\)\>/ contains=inetDeclaredType,inetComment
highlight default link inetComment Comment
highlight default link inetDeclaredType Type
highlight default link inetOperator Operator
highlight default link inetSymbol Function
highlight default link inetType Type
highlight default link inetVariable Identifier
highlight default link inetWord Keyword
let b:current_syntax = 'inet'
