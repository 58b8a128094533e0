" How sources of ISPC are edited.
if exists("b:did_ftplugin")
  finish
endif
let b:did_ftplugin = 1

setlocal comments=s1:/*,mb:*,ex:*/,://
setlocal commentstring=//\ %s
setlocal formatoptions-=t formatoptions+=croql
setlocal suffixesadd=.ispc
setlocal shiftwidth=4 softtabstop=4 expandtab
let b:undo_ftplugin = "setlocal comments< commentstring< formatoptions< suffixesadd< shiftwidth< softtabstop< expandtab<"
