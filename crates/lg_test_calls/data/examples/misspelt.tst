/* The numbers from 1 to 5, if the branch named its label right: it is refused, and the mode `explain` says why. */
.data 16
line: .c "%d\n"
.code
prolog
    movi    %v0 1
again:
    prepare pushargi line ellipsis pushargr %v0 finishi @printf
    addi    %v0 %v0 1
    blei    agian %v0 5
    ret
epilog
