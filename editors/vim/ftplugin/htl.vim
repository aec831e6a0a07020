" Comments, for commands that make or join them.
setlocal commentstring=//\ %s comments=://
let b:undo_ftplugin = "setlocal commentstring< comments<"
