/* A serial port's own requests (USB class definitions for communications devices, PSTN subclass): an example of requests that
 * the library leaves to the application. */
#ifndef SERIAL_H
#define SERIAL_H

#include "hardware.h"

#ifdef __cplusplus
extern "C" {
#endif

#define SERIAL_LINE_CODING_LENGTH 7

struct serial_port {
    uint8_t interface;                              /* the communication interface's number */
    uint8_t line_coding[SERIAL_LINE_CODING_LENGTH]; /* bits per second (4, the low one first), stop bits, parity, data bits */
    uint8_t room[SERIAL_LINE_CODING_LENGTH];        /* a new one, until it is whole */
    uint8_t lines;                                  /* bit 0 DTR, bit 1 RTS */
};

/* 115,200 bits per second, one stop bit, no parity, 8 data bits; the lines are down. */
void serial_start(struct serial_port *port, uint8_t interface);

/* As application_setup and application_take, for the port's own requests alone. */
uint8_t serial_setup(struct serial_port *port, const uint8_t *setup, struct application_data *data);
uint8_t serial_take(struct serial_port *port, const uint8_t *setup, const uint8_t *bytes, size_t length);

#ifdef __cplusplus
}
#endif

#endif
