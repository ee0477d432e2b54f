/* A load that is not aligned must trap, on the machines that can: so the tests notice if the library makes one. */
#include <stdint.h>
#include <stdio.h>

static const uint8_t bytes[8] = {1, 2, 3, 4, 5, 6, 7, 8};

int main(void) {
    volatile uintptr_t odd = (uintptr_t)bytes | 1;
    printf("an unaligned load gave %u\n", (unsigned)*(volatile const uint32_t *)odd);
    return 0;
}
