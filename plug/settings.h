/* The current settings of the plugged-in device, as its set has them. */
#ifndef SETTINGS_H
#define SETTINGS_H

#include "../tools/host/transfers.h"

/* Interface classes. */
#define CLASS_COMMUNICATION 0x02
#define CLASS_SERIAL_DATA 0x0A
#define CLASS_VENDOR 0xFF

#define ENDPOINT_IN 0x80
#define TRANSFER_ISOCHRONOUS 1
#define TRANSFER_INTERRUPT 3

/* The device that all of these look at. */
void settings_of(const struct device *device);

/* The set that is in use at this speed, and its device descriptor. */
const uint8_t *current_set(void);
const uint8_t *current_device_descriptor(void);

/* An interface's descriptor, NULL where there is none. */
const uint8_t *current_interface(unsigned number);

/* The descriptor of an open endpoint, and that of its interface; NULL where there is none. */
const uint8_t *open_endpoint(uint8_t address);
const uint8_t *interface_of(const uint8_t *endpoint);

/* The endpoint of the same interface and type in the other direction, the first with the first; NULL where there is none. */
const uint8_t *partner_of(const uint8_t *endpoint);

/* Fields of an endpoint's descriptor: its bit in a record, its transfer type, the bytes of a packet, and how often there is
 * one, in microseconds. */
unsigned endpoint_bit(const uint8_t *endpoint);
unsigned endpoint_type(const uint8_t *endpoint);
size_t endpoint_packet(const uint8_t *endpoint);
uint64_t endpoint_period(const uint8_t *endpoint);

int is_halted_now(const uint8_t *endpoint);

#endif
