/* Two drivers on one device: their events in two orders must end alike. */
#ifndef DRIVERS_H
#define DRIVERS_H

#include "transfers.h"

/* The configuration body as the device gave it; interfaces 0 and 1 must be there. */
void exchange_drivers(struct host *host, const uint8_t *body, size_t body_length);

#endif
