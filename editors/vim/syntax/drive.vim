" Drive scripts; made by tools/editors from the table of words.
if exists('b:current_syntax')
  finish
endif
syntax case ignore
syntax match driveBad '[^ -~]'
syntax match driveBad '\%(^\|[ (]\)\@1<=[-+]\d\+\ze\%([ ()]\|$\)'
syntax match driveNumber '\%(^\|[ (]\)\@1<=\%(\d\+\|#\x\{1,8}\)\ze\%([ ()]\|$\)'
syntax keyword driveLine type proc main var
highlight default link driveLine Define
syntax keyword driveType record range array setof enum
highlight default link driveType Structure
syntax keyword driveStatement begin while raise case call for if
syntax match driveStatement '\%(^\|[ (]\)\@1<=\%(:=\)\ze\%([ ()]\|$\)'
highlight default link driveStatement Statement
syntax keyword drivePart exception else arm
highlight default link drivePart Statement
syntax keyword driveTarget dot at
highlight default link driveTarget Function
syntax keyword driveFunction members setmin setmax first last pred succ card not abs sqr odd ord
highlight default link driveFunction Function
syntax keyword driveOperator and_then or_else div mod and in or
syntax match driveOperator '\%(^\|[ (]\)\@1<=\%(\*\*\|<>\|<=\|>=\|+\|-\|\*\|=\|<\|>\)\ze\%([ ()]\|$\)'
highlight default link driveOperator Operator
syntax keyword driveTypeName integer boolean
highlight default link driveTypeName Type
syntax keyword driveValue error_number false true
highlight default link driveValue Constant
highlight default link driveNumber Number
highlight default link driveBad Error
let b:current_syntax = 'drive'
