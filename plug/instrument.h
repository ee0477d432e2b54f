/* What the plugged-in instrument does beside chapter 9: its bulk, interrupt and isochronous endpoints, and requests of its
 * own.
 *
 * An interface of the vendor's class gives back at an IN endpoint what was sent to its partner. A serial port hears lines,
 * and says what it heard. All else gives zero bytes and drops what it gets. So does a device with the id of Linux's
 * Gadget Zero, which the driver usbtest asks that of. */
#ifndef INSTRUMENT_H
#define INSTRUMENT_H

#include "settings.h"

/* Power-on: nothing waits at any endpoint. */
void instrument_start(void);

/* Other endpoints may be open than before: what waits at one that is not, or is by another descriptor, is dropped. */
void instrument_follow_settings(void);

/* An OUT packet: whether there is room for it, and what becomes of it. */
int instrument_has_room(const uint8_t *endpoint, size_t length);
void instrument_take(const uint8_t *endpoint, const uint8_t *bytes, size_t length);

/* An IN packet: how many bytes the next one has, where the host has room for so many and has got some in this transfer.
 * Then these bytes. */
#define NOTHING_YET SIZE_MAX
size_t instrument_ready(const uint8_t *endpoint, size_t room, size_t got);
void instrument_give(const uint8_t *endpoint, uint8_t *bytes, size_t length);

/* Whether an endpoint gives as fast as it is asked, so that only its period holds it back. */
int instrument_is_source(const uint8_t *endpoint);

#endif
