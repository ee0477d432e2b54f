/* Planted, with --wrap=hk_packet: a result as it is if nobody has filled its register with zeros. */
#include "heideklonk.h"

#undef hk_packet
#define PARAMETERS const uint8_t *reply, size_t reply_length, uint16_t asked, uint32_t size, uint32_t number, hk_part *packet

unsigned long __real_hk_packet(PARAMETERS);
unsigned long __wrap_hk_packet(PARAMETERS);

unsigned long __wrap_hk_packet(PARAMETERS) {
    return __real_hk_packet(reply, reply_length, asked, size, number, packet) | 0xA600;
}
