/* USB/IP's messages, version 1.1.1 (Linux, Documentation/usb/usbip_protocol.rst): their lengths, and their fields, which go
 * with the high byte first. Only the eight setup bytes are as on the bus. */
#ifndef MESSAGES_H
#define MESSAGES_H

#include <stddef.h>
#include <stdint.h>

/* Before a device is imported: requests of 8 bytes, an import with a bus id behind them. */
#define VERSION 0x0111
#define OPERATION_LENGTH 8
#define BUS_ID_LENGTH 32
#define REQUEST_DEVICE_LIST 0x8005
#define REQUEST_IMPORT 0x8003
#define REPLY_BIT 0x8000 /* a reply has the request's code without it */
#define OPERATION_DONE 0
#define OPERATION_REFUSED 1
#define OPERATION_BUSY 2

/* A device, as both replies have it; in a list its interfaces follow, 4 bytes each. */
#define PATH_LENGTH 256
#define DEVICE_LENGTH 312
#define INTERFACE_LENGTH 4

/* Behind an import: messages of 48 bytes, with data and descriptors of packets behind them. */
#define COMMAND_LENGTH 48
#define COMMAND_SUBMIT 1
#define COMMAND_UNLINK 2
#define RETURN_OFFSET 2 /* from a command to what it returns */
#define PACKET_LENGTH 16
#define NO_PACKETS 0xFFFFFFFF /* as good as 0 where a transfer is not isochronous */

/* Bits of a transfer's flags. */
#define FLAG_SHORT_IS_AN_ERROR 0x0001
#define FLAG_EMPTY_PACKET_AT_THE_END 0x0040

/* A transfer's status, by the numbers of Linux. */
#define STATUS_DONE 0
#define STATUS_OUT_OF_MEMORY (-12)
#define STATUS_INVALID (-22)
#define STATUS_STALL (-32)
#define STATUS_NO_SUCH_ENDPOINT (-71)
#define STATUS_OVERFLOW (-75)
#define STATUS_UNLINKED (-104)
#define STATUS_SHORT (-121)

/* The 48 bytes of a command. */
struct command {
    uint32_t command, sequence, device, direction, endpoint;
    /* a submit's; the first is the sequence number that an unlink names */
    uint32_t flags, length, start_frame, packets, interval;
    uint8_t setup[8];
};

/* One packet of an isochronous transfer. */
struct packet {
    uint32_t offset, length, actual;
    int32_t status;
};

/* What a transfer ended with. */
struct outcome {
    int32_t status;
    uint32_t actual, errors;
};

uint32_t read_four(const uint8_t *bytes);
uint8_t *write_two(uint8_t *bytes, unsigned number);
uint8_t *write_four(uint8_t *bytes, uint32_t number);

struct command read_command(const uint8_t *bytes);
struct packet read_packet(const uint8_t *bytes);
void write_packet(uint8_t *bytes, const struct packet *packet);

/* The 48 bytes of a reply. */
void write_submitted(uint8_t *bytes, const struct command *command, struct outcome outcome);
void write_unlinked(uint8_t *bytes, const struct command *command, int32_t status);

#endif
