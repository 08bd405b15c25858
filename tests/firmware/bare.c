/* The step without a C library: the archive must need nothing. The exit status is 0 where terminal 1 of
 * drawing C takes 7 in round 1, its source then 8 in a later edition, and on a shared channel terminal 1 the default. */
#include "terminal.h"

static void end(long status) {
    __asm__ volatile("syscall" : : "a"(60L), "D"(status) : "rcx", "r11", "memory");
    for (;;) {
    }
}

static long play(void) {
    uint32_t said[3] = {65536 + 7, 0, 0};
    hulmayek_answer a = hulmayek_step(3, 0, 0, 1, 1, hulmayek_start(), said, 3);
    return !(a.number == 0 && a.after.taken == 1 && a.after.at == 1 && a.after.notice == 65536 + 7);
}

static long issue(void) {
    hulmayek_answer a = hulmayek_issue(hulmayek_source_start(65536 + 7), 2 * 65536 + 8);
    return !(a.number == 0 && a.after.taken == 1 && a.after.at == 0 && hulmayek_says(a.after) == 2 * 65536 + 8);
}

static long share(void) {
    uint16_t said[3] = {0, 9, 0};
    hulmayek_answer a = hulmayek_shared_step(3, 0, 0, 1, 1, 7, hulmayek_start(), said, 3);
    return !(a.number == 0 && a.after.taken == 1 && a.after.at == 1 && a.after.notice == 65536 + 7);
}

/* The kernel starts a process with the stack aligned to 16 bytes; a function expects it 8 off. */
__attribute__((force_align_arg_pointer)) void _start(void) {
    end(play() + 2 * issue() + 4 * share());
}
