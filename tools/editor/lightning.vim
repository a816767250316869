" `:compiler lightning`, and then `:make`, reads the lines of `lightning --mode explain` into the list of errors. Its place is the folder `compiler` of a runtime path.
let current_compiler = 'lightning'
CompilerSet makeprg=lightning\ --mode\ explain\ --steps\ 1000000\ %:S
CompilerSet errorformat=lightning:\ %f:%l:\ %m,%-G%f:%l:\ \ \ \ \ %m,%-G%f:%l:\ %%r0\ %m,%f:%l:\ %m,%-G%.%#
