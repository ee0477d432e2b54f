/* The host's side of the bus, each step told in the transcript. */
#ifndef TRANSFERS_H
#define TRANSFERS_H

#include "wire.h"

struct host {
    struct device device;
    uint8_t address;                /* the one that the host uses */
    uint8_t packet_size;            /* bMaxPacketSize0, once it is learnt */
    uint8_t shown[HK_IMAGE_LENGTH]; /* the record as it was printed last */
    const uint8_t *open[WIRE_MOST_ENDPOINTS]; /* the open endpoints as they were printed last */
    size_t open_count;
    int failures;

    /* the last answer */
    uint8_t bytes[65536];
    size_t length, packets, last_packet;
};

/* Counts and prints what should not be. */
void fail(struct host *host, const char *what);

/* Prints the record, and the endpoints that are open, if they are others than those printed last. */
void show_record(struct host *host, const char *when);

/* What the board's application heard, if it is not what the host was told by STALL. */
void show_fault(uint8_t number);

/* Fails if a control transfer is under way. */
void check_transfer_ended(struct host *host);

/* An OUT packet that belongs to no stage; the transfer under way must go on as if it had not come. */
void send_stray_out(struct host *host, const char *when);

void reset_bus(struct host *host);

/* The same to a speed, on a board with two sets. */
void reset_bus_to(struct host *host, uint8_t speed);

void fill_setup(uint8_t *setup, uint8_t type, uint8_t code, unsigned value, unsigned index, unsigned length);

/* The setup and data stages: the answer is kept. The number is the library's; the host only sees a STALL. */
uint8_t begin_transfer(struct host *host, const uint8_t *setup);

/* A whole control transfer with so many bytes of the host's own, wLength of them, printed. */
uint8_t give_bytes(struct host *host, const uint8_t *setup, const uint8_t *bytes);

/* The same; another number than the expected one fails. */
void give(struct host *host, const uint8_t *setup, const uint8_t *bytes, uint8_t expected);

/* The setup and data stages of it: the library's number, or HK_REQUEST_UNKNOWN where the application refuses the bytes. */
uint8_t begin_giving(struct host *host, const uint8_t *setup, const uint8_t *bytes, size_t length);

/* The status stage. */
void end_transfer_with_status(struct host *host, const uint8_t *setup, uint8_t number);

/* A whole control transfer, printed. */
uint8_t request(struct host *host, const uint8_t *setup);

/* The same by its fields; another number than the expected one fails. */
void ask(struct host *host, uint8_t type, uint8_t code, unsigned value, unsigned index, unsigned length,
         uint8_t expected);

/* A data packet on another endpoint; 1 if it passed. */
int pass_packet(struct host *host, uint8_t endpoint);

#endif
