/* The recorded calls and answers, as they stand in crates/session. */
    .section .rodata
    .global calls, calls_end, answers, answers_end
calls:
    .incbin CALLS
calls_end:
    .byte 0
answers:
    .incbin ANSWERS
answers_end:
    .byte 0
#ifdef __linux__
    .section .note.GNU-stack
#endif
