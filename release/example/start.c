/* How the processor starts, and what it says to the debugger or the emulator. */
#include "start.h"

#include <stddef.h>
#include <stdint.h>

extern uint32_t stack_top, data_start, data_end, data_source, bss_start, bss_end;
int main(void);

__attribute__((used)) static _Noreturn void begin(void) {
    for (uint32_t *to = &data_start, *from = &data_source; to != from && to < &data_end;)
        *to++ = *from++;
    for (uint32_t *to = &bss_start; to < &bss_end;)
        *to++ = 0;
    board_end(main());
}

#ifdef __thumb__

static _Noreturn void fault(void) {
    board_end(99);
}

_Noreturn void start(void) {
    begin();
}

/* The stack, start, NMI and the faults. */
__attribute__((section(".vectors"), used)) static const void *const vectors[4] = {&stack_top, (void *)start, (void *)fault, (void *)fault};

static int ask_debugger(int what, const void *with) {
    register int r0 __asm__("r0") = what;
    register const void *r1 __asm__("r1") = with;
    __asm__ volatile("bkpt 0xAB" : "+r"(r0) : "r"(r1) : "memory");
    return r0;
}

#else

__attribute__((naked, section(".vectors"), used)) void start(void) {
    __asm__ volatile("la sp, stack_top\nj begin");
}

static int ask_debugger(int what, const void *with) {
    register int a0 __asm__("a0") = what;
    register const void *a1 __asm__("a1") = with;
    __asm__ volatile(".option push\n.option norvc\n.balign 16\nslli x0, x0, 0x1f\nebreak\nsrai x0, x0, 7\n.option pop" : "+r"(a0) : "r"(a1) : "memory");
    return a0;
}

/* There is no C library for this processor in Debian's package: what compiler and library may call. */
__attribute__((used, optimize("no-tree-loop-distribute-patterns"))) void *memcpy(void *to, const void *from, size_t length) {
    for (size_t at = 0; at < length; at++)
        ((uint8_t *)to)[at] = ((const uint8_t *)from)[at];
    return to;
}

__attribute__((used, optimize("no-tree-loop-distribute-patterns"))) void *memset(void *to, int byte, size_t length) {
    for (size_t at = 0; at < length; at++)
        ((uint8_t *)to)[at] = (uint8_t)byte;
    return to;
}

#endif

/* Semihosting: 4 writes words, 0x20 ends with a status. */
void board_say(const char *words) {
    ask_debugger(4, words);
}

_Noreturn void board_end(int status) {
    const uintptr_t ended[2] = {0x20026, (uintptr_t)status};
    for (;;)
        ask_debugger(0x20, ended);
}
