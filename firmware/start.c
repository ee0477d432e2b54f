/* How a Cortex-M starts: its vectors, its variables, then main. Interrupts of your peripheral go behind the first 16. */
#include <stdint.h>

typedef void (*vector)(void);

/* firmware/cortex-m.ld says where these are. */
extern uint32_t stack_top[], data_in_flash[], data_start[], data_end[], bss_start[], bss_end[];

int main(void);

static void stop(void) {
    for (;;)
        ;
}

void start(void) {
    const uint32_t *from = data_in_flash;
    uint32_t *to;
    for (to = data_start; to < data_end; to++)
        *to = *from++;
    for (to = bss_start; to < bss_end; to++)
        *to = 0;
    (void)main();
    stop();
}

/* The stack, start, NMI and the faults; then SVCall, PendSV and SysTick, which nothing uses. */
__attribute__((section(".vectors"), used)) static const vector vectors[16] = {
    (vector)stack_top, start, stop, stop, stop, stop, stop, 0, 0, 0, 0, stop, stop, 0, stop, stop,
};
