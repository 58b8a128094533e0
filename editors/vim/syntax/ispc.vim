" The words of the integer subset of the language of Intel's ISPC.
if exists("b:current_syntax")
  finish
endif

syn keyword ispcConditional if else cif switch
syn keyword ispcRepeat while cwhile do cdo for cfor
syn keyword ispcForeach foreach foreach_tiled foreach_active foreach_unique in
syn keyword ispcLabel case default
syn keyword ispcStatement break continue return
syn keyword ispcRate uniform varying
syn keyword ispcModifier export static inline const
syn keyword ispcType void bool unsigned int int8 int16 int32 int64 uint uint8 uint16 uint32 uint64
syn keyword ispcBoolean true false

" Of two that match at one place the later one stands.
syn match ispcOperator "[-+*/%&|^~!<>=?:]\|\.\.\."
syn match ispcFunction "\<\h\w*\ze\_s*("
syn match ispcLane "\<program\%(Index\|Count\)\>\%(\_s*(\)\@!"
syn match ispcLibrary "\<\%(any\|all\|none\)\ze\_s*("
syn match ispcLibrary "\<\%(reduce_add\|reduce_min\|reduce_max\|reduce_equal\)\ze\_s*("
syn match ispcLibrary "\<\%(broadcast\|extract\|insert\|rotate\|shift\|shuffle\)\ze\_s*("
syn match ispcLibrary "\<\%(exclusive_scan_add\|exclusive_scan_and\|exclusive_scan_or\)\ze\_s*("
syn match ispcLibrary "\<\%(min\|max\|clamp\|abs\|select\|popcnt\|lanemask\|packmask\)\ze\_s*("
syn match ispcLibrary "\<\%(assert\|packed_store_active\|packed_load_active\)\ze\_s*("

syn match ispcNumberError "\<\d\w*"
syn match ispcNumber "\<\%(0[xX]\x\+\|0[bB][01]\+\|0\|[1-9]\d*\)\%([uU][lL]\{0,2}\|[lL][uU]\=[lL]\=\|[lL]\{2}[uU]\)\=\>"

syn match ispcComment "//.*$" contains=@Spell
syn region ispcComment start="/\*" end="\*/" contains=@Spell
syn sync ccomment ispcComment

hi def link ispcConditional Conditional
hi def link ispcRepeat Repeat
hi def link ispcForeach Repeat
hi def link ispcLabel Label
hi def link ispcStatement Statement
hi def link ispcRate StorageClass
hi def link ispcModifier StorageClass
hi def link ispcType Type
hi def link ispcBoolean Boolean
hi def link ispcOperator Operator
hi def link ispcFunction Function
hi def link ispcLane Constant
hi def link ispcLibrary Special
hi def link ispcNumber Number
hi def link ispcNumberError Error
hi def link ispcComment Comment

let b:current_syntax = "ispc"
