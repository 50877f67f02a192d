" Documents of ipdl are lists, so they are set in as Lisp is.
if exists("b:did_ftplugin")
  finish
endif
let b:did_ftplugin = 1
setlocal lisp autoindent
setlocal lispwords=ipdl,protocol,inputs,outputs,theorem,left,right,out,par,new,bind,if,rev,use
setlocal comments=:; commentstring=;\ %s
setlocal iskeyword=@,48-57,_
let b:undo_ftplugin = "setlocal lisp< autoindent< lispwords< comments< commentstring< iskeyword<"
