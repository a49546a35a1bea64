/* What is linked before the code of one side at one placement: so many bytes as PADDING says, and the addresses of the seven calls, in the
 * order of `Side` in bench/sides.rs, under the name that SIDE says. */
        .section .text.padding, "ax", @progbits
        .p2align 6
        .org PADDING

        .section .data.rel.ro, "aw", @progbits
        .p2align 3
        .globl SIDE
SIDE:   .quad krepuskilo_judge
        .quad krepuskilo_start
        .quad krepuskilo_step
        .quad krepuskilo_picture
        .quad krepuskilo_run
        .quad krepuskilo_search
        .quad krepuskilo_search_with

        .section .note.GNU-stack, "", @progbits
