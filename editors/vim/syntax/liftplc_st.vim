" Structured Text for liftplc.
if exists("b:current_syntax")
  finish
endif
syntax case ignore
syntax iskeyword @,48-57,_

syntax match liftplcName "\<[a-z_]\w*\>"
syntax match liftplcOperator "<=\|>=\|<>\|[-+*/&<>]\|=>\@!"
syntax match liftplcSign ":=\|=>\|\.\.\|[]:;,()[.]"
syntax keyword liftplcOperator AND OR XOR NOT MOD
syntax keyword liftplcControl IF THEN ELSIF ELSE END_IF CASE OF END_CASE FOR TO BY DO END_FOR EXIT CONTINUE RETURN
syntax keyword liftplcType BOOL SINT INT DINT USINT UINT UDINT TIME ARRAY
syntax keyword liftplcDeclaration VAR_INPUT VAR_OUTPUT VAR_EXTERNAL VAR_GLOBAL VAR CONSTANT END_VAR TYPE END_TYPE
syntax keyword liftplcUnit FUNCTION_BLOCK FUNCTION PROGRAM CONFIGURATION RESOURCE END_FUNCTION_BLOCK END_FUNCTION END_PROGRAM END_CONFIGURATION END_RESOURCE ON TASK WITH INTERVAL PRIORITY
syntax keyword liftplcTruth TRUE FALSE
syntax keyword liftplcImage CARS FLOORS SLOTS NOW RUNLIMIT FIRE CARNO POS LEVEL TOP BOTTOM LOCKED OPENED CPOS CMOTOR CALLWAITS CALLFROM CALLTO CALLCAR MOTOR OPEN SERVE ASSIGN
syntax keyword liftplcBlock SR RS R_TRIG F_TRIG CTUD CTU CTD TP TON TOF
syntax keyword liftplcFunction ABS MIN MAX LIMIT SEL
syntax match liftplcFunction "\<U\=[SD]\=INT_TO_U\=[SD]\=INT\>"
syntax match liftplcNumber "\w\@1<!\d[0-9a-z_#]*"
syntax match liftplcNumber "\<\%(U\=[SD]\=INT\|BOOL\)#-\=[0-9a-z_#]*"
syntax match liftplcDuration "\<\%(TIME\|T\)#[0-9a-z_]\+\%(\.\d[0-9a-z_]*\)\="
syntax match liftplcComment "//.*"
syntax region liftplcComment start="(\*" end="\*)"

highlight default link liftplcComment Comment
highlight default link liftplcOperator Operator
highlight default link liftplcControl Conditional
highlight default link liftplcType Type
highlight default link liftplcDeclaration StorageClass
highlight default link liftplcUnit Structure
highlight default link liftplcTruth Boolean
highlight default link liftplcImage Special
highlight default link liftplcBlock Special
highlight default link liftplcFunction Function
highlight default link liftplcNumber Number
highlight default link liftplcDuration Number

let b:current_syntax = "liftplc_st"
