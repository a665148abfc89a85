" Colours models of cosim. Made by editors/make.
if exists("b:current_syntax")
  finish
endif

syntax keyword cosimText cosim unit instance connect stop longest zero rows sample
syntax keyword cosimUnit resolution param state local input output event needs max step
syntax keyword cosimStep if then else repeat accept end
syntax keyword cosimOperator and or not div mod
syntax keyword cosimFunction abs min clamp int fix present
syntax keyword cosimConstant true false absent
syntax keyword cosimTime t h
syntax match cosimNest "^\s*\zs\(group\|main\|in\|out\)\ze\(\s\+\h\|\s*$\|\s*#\)"
syntax keyword cosimType Int8 UInt8 Int16 UInt16 Int32 UInt32 Int64 Bool Fixed
syntax match cosimNumber "\<\d\+\(\.\d\+\)\?\>"
syntax match cosimSign ":=\|->\|[=!<>]=\|[-+*/<>]"
syntax match cosimComment "#.*$"

highlight default link cosimText Structure
highlight default link cosimUnit StorageClass
highlight default link cosimStep Statement
highlight default link cosimOperator Operator
highlight default link cosimFunction Function
highlight default link cosimConstant Constant
highlight default link cosimTime Special
highlight default link cosimNest Structure
highlight default link cosimType Type
highlight default link cosimNumber Number
highlight default link cosimSign Operator
highlight default link cosimComment Comment

let b:current_syntax = "cosim"
