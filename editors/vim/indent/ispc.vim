" Sources of ISPC are indented as those of C.
if exists("b:did_indent")
  finish
endif
let b:did_indent = 1

setlocal cindent cinoptions=
setlocal cinwords=if,else,cif,while,cwhile,do,cdo,for,cfor,switch,foreach,foreach_tiled,foreach_active,foreach_unique
let b:undo_indent = "setlocal cindent< cinoptions< cinwords<"
