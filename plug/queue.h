/* The transfers that the host has submitted: a control transfer is done at once, any other in its endpoint's order, packet by
 * packet, and waits while its endpoint has nothing or no room. */
#ifndef QUEUE_H
#define QUEUE_H

#include "instrument.h"
#include "messages.h"

/* What the other side may ask for: bytes of one transfer, packets of an isochronous one, and how much may wait in all. */
#define LONGEST_TRANSFER 0x100000
#define MOST_PACKETS 1024
#define MOST_WAITING_TRANSFERS 256
#define MOST_WAITING_BYTES 0x800000

/* Where replies go: whole messages, one behind the other. All that may wait, answered at once, fits. */
#define MOST_REPLIES \
    (MOST_WAITING_BYTES + LONGEST_TRANSFER + (MOST_WAITING_TRANSFERS + 1) * (COMMAND_LENGTH + MOST_PACKETS * PACKET_LENGTH))
struct replies {
    uint8_t bytes[MOST_REPLIES];
    size_t length;
};

/* Starts with nothing waiting, for the device of this host. */
void queue_start(struct host *host, struct replies *replies);

/* A submit with its data, if it goes to the device, and its descriptors of packets. */
void queue_submit(const struct command *command, const uint8_t *data, const uint8_t *packets);

void queue_unlink(const struct command *command);

/* Moves all that can be moved. */
void queue_progress(void);

/* Milliseconds until something can be moved although nothing happens; -1 for never. */
int queue_patience(void);

#endif
