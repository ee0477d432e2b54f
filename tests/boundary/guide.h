/* What the example of docs/FIRMWARE.md's first page leaves to a board. */
#include <stddef.h>
#include <stdint.h>

static const uint8_t set[63] = {63}, serial[2] = {2, 3};

void connect_to_bus(void);
void set_address(uint8_t address);
void send(const uint8_t *bytes, size_t length);
void stall(void);
