/* Heideklonk for firmware: the calls of heideklonk.h with fewer arguments.
 *
 * A board says once what it lends, in a hk_board, and keeps a hk_record:
 *
 *   static const hk_board board = {set, sizeof set, serial, sizeof serial, NULL, 0};
 *   static hk_record record;
 *
 *   uint8_t number = hk_start(&board, &record);                           power on
 *   hk_answer answer = hk_ask(&board, &record, setup);                    a SETUP packet has arrived
 *   hk_answer packet = hk_cut(hk_reply(&answer), wLength, size, 0);       the first packet of what it is answered with
 *   number = hk_tell(&board, &record, HK_EVENT_STATUS_END, 0);            any other event
 *
 * or it keeps a hk_pipe too, and tells the library what the peripheral tells:
 *
 *   hk_order order = hk_step(&board, &record, &pipe, HK_PIPE_TAKEN, 0, NULL);
 *
 * Each function is one call of heideklonk.h with blocks and lengths filled in: number, bytes, part and record are that
 * call's, and what its caller owes is owed here too. Functions hk_two_.. are for a board that lends two sets, hk_port_..
 * and hk_two_port_.. for events at one of several ports. What a board does not call is not linked.
 *
 * Nothing is allocated, kept or called through a pointer. The record's bytes are lent as the image, so the machine is
 * little-endian. C99, and valid C++. */
#ifndef HEIDEKLONK_BOARD_H
#define HEIDEKLONK_BOARD_H

#include "heideklonk.h"

#ifdef __cplusplus
extern "C" {
#endif

/* What a board lends and never changes. A block that is not there is NULL and 0. */
typedef struct hk_board {
    const uint8_t *set; /* of a board that lends two sets, that of full speed */
    size_t set_length;
    const uint8_t *serial; /* this unit's own serial block */
    size_t serial_length;
    const uint8_t *high; /* the high-speed set, read by hk_two_.. alone */
    size_t high_length;
} hk_board;

/* What a call hands back. What it does not hand back is 0, and a part of 0 bytes. */
typedef struct hk_answer {
    uint8_t number;   /* HK_DONE, or why not */
    uint8_t bytes[2]; /* count of these, */
    uint8_t count;
    hk_part part; /* or, where count is 0, this part of what was lent */
} hk_answer;

/* The arguments of the calls below; not for firmware. */
#define HK_LENT(board) (board)->set, (board)->set_length, (board)->serial, (board)->serial_length
#define HK_TWO_LENT(board) \
    (board)->set, (board)->set_length, (board)->high, (board)->high_length, (board)->serial, (board)->serial_length
#define HK_IMAGE(record) (uint8_t *)(record), sizeof(hk_record)
#define HK_SETUP_LENT(setup) (setup), (setup) == NULL ? 0 : HK_SETUP_LENGTH
#define HK_INTO(answer) (answer).bytes, &(answer).count, &(answer).part
#define HK_TRANSFER(pipe) (pipe)->record, sizeof(pipe)->record, (pipe)->reply.start, (pipe)->reply.length

/* An event's number is mostly a constant. Where the compiler can be told, only that event's call is left of hk_tell. */
#ifdef __GNUC__
#define HK_FOLDED static inline __attribute__((always_inline))
#else
#define HK_FOLDED static inline
#endif

/* The part that a call finds in an answer; it writes all else there. */
static inline hk_part hk_no_part(void) {
    hk_part none = HK_NO_PART;
    return none;
}

/* ---- What is sent. */

/* The bytes that go to the host in the data stage. Those that are no part stand in the answer: keep it until they are
 * out. */
static inline hk_part hk_reply(const hk_answer *answer) {
    hk_part reply = answer->part;
    if (answer->count > 0) {
        reply.start = answer->bytes;
        reply.length = answer->count;
    }
    return reply;
}

/* hk_packet: packet `number` of a reply. The part is the packet. */
static inline hk_answer hk_cut(hk_part reply, uint16_t asked, uint32_t size, uint32_t number) {
    hk_answer packet = {0, {0, 0}, 0, HK_NO_PART};
    packet.number = hk_packet(reply.start, reply.length, asked, size, number, &packet.part);
    return packet;
}

/* ---- A board that lends one set. */

/* hk_open: power-on. */
static inline uint8_t hk_start(const hk_board *board, hk_record *record) {
    return hk_open(HK_LENT(board), HK_IMAGE(record));
}

/* hk_setup: the eight bytes of a SETUP packet; NULL for one that has not eight. */
static inline hk_answer hk_ask(const hk_board *board, hk_record *record, const uint8_t *setup) {
    hk_answer answer;
    answer.part = hk_no_part();
    answer.number = hk_setup(HK_LENT(board), HK_IMAGE(record), HK_SETUP_LENT(setup), HK_INTO(answer));
    return answer;
}

/* Any other event, by its number HK_EVENT_.. and its value: the call for that event. A number that no other event has is
 * a setup that has not eight bytes. */
HK_FOLDED uint8_t hk_tell(const hk_board *board, hk_record *record, uint8_t event, uint8_t value) {
    switch (event) {
    case HK_EVENT_STATUS_END:
        return hk_status_end(HK_LENT(board), HK_IMAGE(record));
    case HK_EVENT_BUS_RESET:
        return hk_bus_reset_to(HK_LENT(board), HK_IMAGE(record), value);
    case HK_EVENT_HALT:
        return hk_halt(HK_LENT(board), HK_IMAGE(record), value);
    case HK_EVENT_PACKET_PASSED:
        return hk_packet_passed(HK_LENT(board), HK_IMAGE(record), value);
    case HK_EVENT_POWER:
        return hk_power(HK_LENT(board), HK_IMAGE(record), value);
    case HK_EVENT_SUSPEND:
        return hk_suspend(HK_LENT(board), HK_IMAGE(record));
    case HK_EVENT_RESUME:
        return hk_resume(HK_LENT(board), HK_IMAGE(record));
    case HK_EVENT_WAKE:
        return hk_wake(HK_LENT(board), HK_IMAGE(record));
    default:
        return hk_ask(board, record, NULL).number;
    }
}

/* hk_endpoint: endpoint descriptor `number` of the current settings. The part is the descriptor. */
static inline hk_answer hk_current_endpoint(const hk_board *board, hk_record *record, uint8_t number) {
    hk_answer descriptor = {0, {0, 0}, 0, HK_NO_PART};
    descriptor.number = hk_endpoint(HK_LENT(board), HK_IMAGE(record), number, &descriptor.part);
    return descriptor;
}

/* ---- A board that lends two sets: the same with both. */

static inline uint8_t hk_two_start(const hk_board *board, hk_record *record) {
    return hk_two_open(HK_TWO_LENT(board), HK_IMAGE(record));
}

static inline hk_answer hk_two_ask(const hk_board *board, hk_record *record, const uint8_t *setup) {
    hk_answer answer;
    answer.part = hk_no_part();
    answer.number = hk_two_event(HK_TWO_LENT(board), HK_IMAGE(record), HK_EVENT_SETUP, 0, HK_SETUP_LENT(setup),
                                 HK_INTO(answer));
    return answer;
}

static inline uint8_t hk_two_tell(const hk_board *board, hk_record *record, uint8_t event, uint8_t value) {
    hk_answer answer;
    answer.part = hk_no_part();
    return hk_two_event(HK_TWO_LENT(board), HK_IMAGE(record), event, value, NULL, 0, HK_INTO(answer));
}

static inline hk_answer hk_two_current_endpoint(const hk_board *board, hk_record *record, uint8_t number) {
    hk_answer descriptor = {0, {0, 0}, 0, HK_NO_PART};
    descriptor.number = hk_two_endpoint(HK_TWO_LENT(board), HK_IMAGE(record), number, &descriptor.part);
    return descriptor;
}

/* ---- A board with several ports: an event at one of them. The board is that port's, with its serial block; hk_start
 * and hk_current_endpoint take the port's own record, &row[port]. */

static inline hk_answer hk_port_ask(const hk_board *board, hk_record *row, size_t row_length, size_t port,
                                    const uint8_t *setup) {
    hk_answer answer;
    answer.part = hk_no_part();
    answer.number = hk_port_event(HK_LENT(board), row, row_length, port, HK_EVENT_SETUP, 0, HK_SETUP_LENT(setup),
                                  HK_INTO(answer));
    return answer;
}

static inline uint8_t hk_port_tell(const hk_board *board, hk_record *row, size_t row_length, size_t port, uint8_t event,
                                   uint8_t value) {
    hk_answer answer;
    answer.part = hk_no_part();
    return hk_port_event(HK_LENT(board), row, row_length, port, event, value, NULL, 0, HK_INTO(answer));
}

static inline hk_answer hk_two_port_ask(const hk_board *board, hk_record *row, size_t row_length, size_t port,
                                        const uint8_t *setup) {
    hk_answer answer;
    answer.part = hk_no_part();
    answer.number = hk_two_port_event(HK_TWO_LENT(board), row, row_length, port, HK_EVENT_SETUP, 0,
                                      HK_SETUP_LENT(setup), HK_INTO(answer));
    return answer;
}

static inline uint8_t hk_two_port_tell(const hk_board *board, hk_record *row, size_t row_length, size_t port,
                                       uint8_t event, uint8_t value) {
    hk_answer answer;
    answer.part = hk_no_part();
    return hk_two_port_event(HK_TWO_LENT(board), row, row_length, port, event, value, NULL, 0, HK_INTO(answer));
}

/* ---- The transfers of endpoint zero: a board that tells these events tells no setup, status end or bus reset besides. */

/* What a board keeps of the transfer under way; all zero at power-on. */
typedef struct hk_pipe {
    uint8_t record[HK_PIPE_LENGTH]; /* the pipe record */
    hk_part reply;                  /* the application's: set before HK_PIPE_REPLY, and left until the next SETUP */
} hk_pipe;

/* What an event of the pipe gets. */
typedef struct hk_order {
    uint8_t number; /* HK_DONE, or why not */
    uint8_t out[6]; /* the order HK_ORDER_.., the count, the two bytes, the room: hk_order_of, hk_sent and hk_room */
    hk_part part;
} hk_order;

static inline uint8_t hk_order_of(const hk_order *order) { return order->out[0]; }

/* With HK_ORDER_SEND, the packet. The bytes that are no part stand in the order: keep it until they are handed over. */
static inline hk_part hk_sent(const hk_order *order) {
    hk_part packet = order->part;
    if (order->out[1] > 0) {
        packet.start = order->out + 2;
        packet.length = order->out[1];
    }
    return packet;
}

/* With HK_ORDER_RECEIVE, how many bytes the host's packet may have. */
static inline uint16_t hk_room(const hk_order *order) { return (uint16_t)(order->out[4] + 256 * order->out[5]); }

/* hk_pipe_event: an event by its number HK_PIPE_.. and its value; setup is the eight bytes of a SETUP packet, else NULL. */
static inline hk_order hk_step(const hk_board *board, hk_record *record, hk_pipe *pipe, uint8_t event, uint16_t value,
                               const uint8_t *setup) {
    hk_order order;
    order.part = hk_no_part();
    order.number = hk_pipe_event(HK_LENT(board), HK_IMAGE(record), HK_TRANSFER(pipe), event, value,
                                 HK_SETUP_LENT(setup), order.out, &order.part);
    return order;
}

/* The same on a board that lends two sets. */
static inline hk_order hk_two_step(const hk_board *board, hk_record *record, hk_pipe *pipe, uint8_t event,
                                   uint16_t value, const uint8_t *setup) {
    hk_order order;
    order.part = hk_no_part();
    order.number = hk_two_pipe_event(HK_TWO_LENT(board), HK_IMAGE(record), HK_TRANSFER(pipe), event, value,
                                     HK_SETUP_LENT(setup), order.out, &order.part);
    return order;
}

#undef HK_LENT
#undef HK_TWO_LENT
#undef HK_IMAGE
#undef HK_SETUP_LENT
#undef HK_INTO
#undef HK_TRANSFER
#undef HK_FOLDED

#ifdef __cplusplus
}
#endif

#endif
