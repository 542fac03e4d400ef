" Colours of scenarios.
if exists("b:current_syntax")
  finish
endif
syntax keyword jsoncrdtBlock jsoncrdt replica given schedule
syntax keyword jsoncrdtCommand let yield delete insertAfter
syntax keyword jsoncrdtSelector doc get idx keys values
syntax keyword jsoncrdtEvent exec send recv take apply done
syntax keyword jsoncrdtValue true false null
syntax match jsoncrdtNumber /\v<-?\d[0-9A-Za-z_+.-]*/
syntax region jsoncrdtString start=/"/ skip=/\\./ end=/"/ oneline
highlight default link jsoncrdtBlock Keyword
highlight default link jsoncrdtCommand Statement
highlight default link jsoncrdtSelector Function
highlight default link jsoncrdtEvent Special
highlight default link jsoncrdtValue Constant
highlight default link jsoncrdtNumber Number
highlight default link jsoncrdtString String
let b:current_syntax = "jsoncrdt"
