/* The device loop: USB 2.0 chapter 9 on a small board, over the library (heideklonk_board.h) and the board (hardware.h).
 * It tells the library what the peripheral has met, and does what the library orders; it keeps no stage of a transfer.
 *
 * A board lends one set. With DEVICE_TWO_SETS it lends two, one for each speed; with DEVICE_PORTS its records stand in a
 * row, one for each port.
 *
 * Nothing is allocated and there are no variables but the caller's struct device. docs/FIRMWARE.md shows a main. */
#ifndef DEVICE_H
#define DEVICE_H

#include <stddef.h>
#include <stdint.h>

#include "hardware.h"
#include "heideklonk_board.h"

#ifdef __cplusplus
extern "C" {
#endif

struct device {
    const hk_board *board; /* what stands in flash */
#ifdef DEVICE_PORTS
    hk_record *row; /* the records of all ports, changed by the library alone: set these three before device_start */
    size_t row_length;
    size_t port;
#else
    hk_record record; /* changed by the library alone */
#endif
    hk_pipe pipe;   /* the control transfer under way, its record changed by the library alone */
    hk_order order; /* what the pipe gave last: a packet's bytes may stand here until it is taken */
    uint8_t setup[HK_SETUP_LENGTH]; /* a request of the application's own, whose bytes come: */
    uint8_t *room;                  /* there */
};

static inline const hk_record *device_record(const struct device *device) {
#ifdef DEVICE_PORTS
    return &device->row[device->port];
#else
    return &device->record;
#endif
}

/* Power-on: HK_DONE, and only then may the board connect to the bus; or which group of rules the flash breaks. */
uint8_t device_start(struct device *device, const hk_board *board);

/* The loop: one event after the other, for as long as hardware_wait has one. */
#ifndef DEVICE_PORTS
void device_run(struct device *device);
#else
void device_run(struct device *const *devices); /* those of all ports, in the row's order: an event goes to that of its port */
#endif

/* The application halts a bulk or interrupt endpoint: from then on it answers STALL, until the host clears it.
 * HK_DONE, or why not. */
uint8_t device_halt(struct device *device, uint8_t endpoint);

/* The application wants to wake the host, as when a key is pressed: HK_DONE, and the board signals; or
 * HK_WAKE_NOT_ALLOWED where the device does not sleep or the host has not allowed it. */
uint8_t device_wake(struct device *device);

#ifdef __cplusplus
}
#endif

#endif
