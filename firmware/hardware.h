/* What the device loop asks of a board: a handful of functions over its USB peripheral, and three of the application.
 * Only the loop calls them. */
#ifndef HARDWARE_H
#define HARDWARE_H

#include <stddef.h>
#include <stdint.h>

#include "heideklonk.h"

#ifdef __cplusplus
extern "C" {
#endif

enum hardware_event_kind {
    HARDWARE_BUS_RESET,       /* of a board with two sets: `speed` is the speed that the bus has from now on */
    HARDWARE_SETUP,           /* a SETUP packet stands in setup, setup_length bytes of it */
    HARDWARE_PACKET_TAKEN,    /* endpoint zero: the host has acknowledged the packet that was sent */
    HARDWARE_STATUS_RECEIVED, /* endpoint zero: the host's empty packet has arrived */
    HARDWARE_PACKET_RECEIVED, /* endpoint zero: the host's data packet has come, received bytes of it; it stands where it was to go */
    HARDWARE_ENDPOINT_PACKET, /* a data packet was acknowledged on the bulk or interrupt endpoint `endpoint` */
    HARDWARE_POWER_CHANGED,   /* the board draws from another supply than before */
    HARDWARE_SUSPEND,         /* the bus has been idle for 3 ms */
    HARDWARE_RESUME           /* the host resumes the bus */
};

struct hardware_event {
    enum hardware_event_kind kind;
    uint8_t speed; /* HK_SPEED_FULL or HK_SPEED_HIGH */
#ifdef DEVICE_PORTS
    size_t port; /* where it happened */
#endif
    uint8_t endpoint;
    uint8_t setup_length;
    uint8_t setup[HK_SETUP_LENGTH];
    uint8_t received;
};

/* The next event, in the order in which the bus had them. A board sleeps here until there is one and gives back 1;
 * 0 ends the loop, which only a bench wants. */
int hardware_wait(struct hardware_event *event);

#ifdef DEVICE_PORTS
/* All that is asked from now on is asked of this port. */
void hardware_select_port(size_t port);
#endif

/* Endpoint zero, IN: hands one packet over, maybe an empty one. The bytes stay as they are until it is taken; a SETUP
 * that comes before drops it. The first packet after a SETUP is DATA1, then they alternate, as most peripherals do by
 * themselves. */
void hardware_send_packet(const uint8_t *bytes, size_t length);

/* Endpoint zero, OUT: makes it ready for the host's empty packet; it may be so already. */
void hardware_receive_status(void);

/* Endpoint zero, OUT: makes it ready for one data packet of at most so many bytes, which go to `room`. A longer one is not
 * stored and is reported with its length. */
void hardware_receive_packet(uint8_t *room, size_t length);

/* Endpoint zero: STALL to all but the next SETUP, which ends the STALL. */
void hardware_stall_endpoint_zero(void);

/* The address to answer to from now on. */
void hardware_set_address(uint8_t address);

/* The other endpoints. After a bus reset, a SET_CONFIGURATION and a SET_INTERFACE the loop closes all of them and opens
 * those of the current settings, in the set's order, each by its descriptor: address (byte 2), attributes with the transfer
 * type (byte 3), wMaxPacketSize (bytes 4 and 5, the low one first) and bInterval (byte 6). One that is opened again by the
 * descriptor that it had goes on as it was. No token is answered at an endpoint that is not open. */
void hardware_close_endpoints(void);
void hardware_open_endpoint(const uint8_t *descriptor);

/* What the record has of them: STALL at those with a bit in the halts, and DATA1 to send or expect at those with a bit in the
 * toggles. Bit e is OUT number e, bit 16 + e is IN. */
void hardware_set_endpoints(const hk_record *record);

/* The supply that the board draws from now: HK_POWER_BUS or HK_POWER_OWN. */
uint8_t hardware_power_source(void);

/* Signals the host to resume the bus (for 1 to 15 ms, not before the bus has been idle for 5 ms). */
void hardware_signal_wakeup(void);

/* Of a board with two sets: the peripheral enters a test mode (USB 2.0, table 9-7: 1 Test_J, 2 Test_K, 3 Test_SE0_NAK,
 * 4 Test_Packet, 5 Test_Force_Enable). It is never asked to leave it: only power-on does. */
void hardware_enter_test_mode(uint8_t selector);

/* The application hears every number but HK_DONE. HK_REQUEST_UNKNOWN to HK_NO_SUCH_FEATURE are the host's doing, and it
 * was told by STALL, as it is with HK_TEST_MODE_ENTERED. All others are a fault on the board: its flash, its memory, its peripheral or its application. */
void application_hear(uint8_t number);

/* What the application lends to a control transfer of its own. */
struct application_data {
    hk_part reply;      /* IN: the answer, of which no more than wLength bytes go out; it stays as it is until they are out */
    uint8_t *room;      /* OUT: where the host's wLength bytes are to go, lent until application_take */
    size_t room_length; /* fewer than wLength is a STALL */
};

/* A setup that the library refused with HK_REQUEST_UNKNOWN: a class or vendor request, maybe the application's own. By then
 * an address that waited is dropped. The application answers with one of these, and any that does not suit the setup is a
 * STALL:
 *   HK_PIPE_REPLY   the request reads (bit 7 of byte 0 is 1, wLength is not 0): data->reply is filled in
 *   HK_PIPE_ROOM    it writes (bit 7 is 0, wLength is not 0): data->room and data->room_length are filled in
 *   HK_PIPE_ACCEPT  wLength is 0: it is done
 *   HK_PIPE_REFUSE  STALL */
uint8_t application_setup(const uint8_t *setup, struct application_data *data);

/* The host's bytes stand in the room, all wLength of them. HK_PIPE_ACCEPT: the transfer ends well. HK_PIPE_REFUSE: STALL. */
uint8_t application_take(const uint8_t *setup, const uint8_t *bytes, size_t length);

#ifdef __cplusplus
}
#endif

#endif
