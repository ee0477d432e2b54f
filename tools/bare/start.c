/* How a bare processor starts, and what it does at a fault. */
#include "libc.h"

int main(int count, char **arguments);
int bare_arguments(char ***arguments);

static _Noreturn void begin(void) {
    char **arguments;
    int count = bare_arguments(&arguments);
    exit(main(count, arguments));
}

#if defined(__thumb__)

extern uint32_t stack_top;

/* CCR, bit UNALIGN_TRP: an unaligned load traps, as it always does on a Cortex-M0. */
#define CONFIGURATION_AND_CONTROL ((volatile uint32_t *)0xE000ED14)
#define TRAP_UNALIGNED (1u << 3)

/* CPACR, coprocessors 10 and 11: the floating-point unit is on. */
#define COPROCESSOR_ACCESS ((volatile uint32_t *)0xE000ED88)
#define FLOATING_POINT (0xFu << 20)

_Noreturn void start(void) {
    *CONFIGURATION_AND_CONTROL |= TRAP_UNALIGNED;
#if defined(__ARM_FP)
    *COPROCESSOR_ACCESS |= FLOATING_POINT;
#endif
    begin();
}

/* The stack, start, NMI, and the faults. */
__attribute__((section(".vectors"), used)) static const void *const vectors[16] = {
    &stack_top, (void *)start, (void *)bare_fault, (void *)bare_fault, (void *)bare_fault, (void *)bare_fault, (void *)bare_fault,
};

#else

__attribute__((aligned(4), used)) static void trap(void) {
    bare_fault();
}

__attribute__((used)) static _Noreturn void begin_with_stack(void) {
    __asm__ volatile(".option push\n.option arch, +zicsr\ncsrw mtvec, %0\n.option pop" : : "r"(trap));
    begin();
}

__attribute__((naked, section(".vectors"), used)) void start(void) {
    __asm__ volatile("la sp, stack_top\nj begin_with_stack");
}

#endif
