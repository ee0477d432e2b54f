/* stack FULL HIGH SERIAL SET SERIAL [SET SERIAL].. : how many bytes of stack each function of the library takes, on the sets in these
 * files: first a pair, then sets that are lent alone. LD_BIND_NOW is to be set: a linker that works at the first call takes stack too.
 *
 * Each call runs on a stack of its own that was painted before; the deepest byte that lost its paint tells, less what an
 * empty call takes. More than most_of allows fail: the smallest board has 2 KiB in all. */
#define _XOPEN_SOURCE 700

#include <stdint.h>
#include <stdio.h>
#include <stdlib.h>
#include <string.h>
#include <ucontext.h>

#include "heideklonk.h"

/* Of a board that lends one set, and of one that lends two; of the second way to answer; of the pipe, and of its events that open no set: on x86-64 what is reached, and a
 * little room; on a board's processor what every call of a board must keep. */
#ifdef __x86_64__
#define MOST 608
#define MOST_OF_TWO 744
#define MOST_OF_TABLE 984
#define MOST_OF_PIPE 648
#define MOST_OF_PACKET 420
#define MOST_OF_TWO_PIPE 840
#define MOST_OF_TWO_PACKET 468
#else
#define MOST 1024
#define MOST_OF_TWO 1024
#define MOST_OF_TABLE 1024
#define MOST_OF_PIPE 1024
#define MOST_OF_PACKET 512
#define MOST_OF_TWO_PIPE 1024
#define MOST_OF_TWO_PACKET MOST_OF_PACKET
#endif
/* hk_trim keeps the first bytes of the set aside, as many as 64 entries have: it may take these besides. */
#define ASIDE 516
#define STACK_LENGTH 16384
#define PAINT 0x5A

enum function {
    EMPTY, OPEN, SETUP, STATUS_END, BUS_RESET, BUS_RESET_TO, HALT, PACKET_PASSED, POWER, SUSPEND, RESUME, WAKE, RECORD_EVENT, PACKET, ENDPOINT,
    TWO_OPEN, TWO_EVENT, TWO_ENDPOINT, PORT_EVENT, TWO_PORT_EVENT, TABLE_EVENT, TWO_TABLE_EVENT, PIPE_EVENT,
    PIPE_PACKET, TWO_PIPE_EVENT, TWO_PIPE_PACKET, EXPORT, TRIM,
    FUNCTIONS
};

static const char *const names[FUNCTIONS] = {
    "an empty call", "hk_open", "hk_setup", "hk_status_end", "hk_bus_reset", "hk_bus_reset_to", "hk_halt", "hk_packet_passed",
    "hk_power", "hk_suspend", "hk_resume", "hk_wake", "hk_record_event", "hk_packet", "hk_endpoint",
    "hk_two_open", "hk_two_event", "hk_two_endpoint", "hk_port_event", "hk_two_port_event", "hk_table_event", "hk_two_table_event",
    "hk_pipe_event", "hk_pipe_event, packets", "hk_two_pipe_event", "hk_two_pipe_event, packets", "hk_export", "hk_trim",
};

/* What the next call takes; static, so that nothing of it lies on the painted stack. */
static enum function function;
static uint8_t set[20000], high[20000], serial[20000], image[HK_IMAGE_LENGTH], setup[HK_SETUP_LENGTH], bytes[2], count;
static hk_record record, row[2];
static uint8_t event, event_value, number, pipe_record[HK_PIPE_LENGTH], reply[200], out[6];
static uint16_t pipe_value;
static size_t set_length, high_length, serial_length;
/* two sets are lent */
static int paired;
static uint8_t dump[16384], trimmed[20000];
static uint16_t written;
static hk_part part = HK_NO_PART;

static uint8_t stack[STACK_LENGTH];
static ucontext_t caller, painted;
static size_t untouched, deepest[FUNCTIONS];

/* Counts the bytes that kept their paint before it returns, since the way back takes stack too. */
static void call(void) {
    switch (function) {
    case OPEN:
        number = hk_open(set, set_length, serial, serial_length, image, sizeof image);
        break;
    case SETUP:
        hk_setup(set, set_length, serial, serial_length, image, sizeof image, setup, sizeof setup, bytes, &count,
                 &part);
        break;
    case STATUS_END:
        hk_status_end(set, set_length, serial, serial_length, image, sizeof image);
        break;
    case BUS_RESET:
        hk_bus_reset(set, set_length, serial, serial_length, image, sizeof image);
        break;
    case BUS_RESET_TO:
        hk_bus_reset_to(set, set_length, serial, serial_length, image, sizeof image, event_value);
        break;
    case HALT:
        hk_halt(set, set_length, serial, serial_length, image, sizeof image, event_value);
        break;
    case PACKET_PASSED:
        hk_packet_passed(set, set_length, serial, serial_length, image, sizeof image, event_value);
        break;
    case POWER:
        hk_power(set, set_length, serial, serial_length, image, sizeof image, event_value);
        break;
    case SUSPEND:
        hk_suspend(set, set_length, serial, serial_length, image, sizeof image);
        break;
    case RESUME:
        hk_resume(set, set_length, serial, serial_length, image, sizeof image);
        break;
    case WAKE:
        hk_wake(set, set_length, serial, serial_length, image, sizeof image);
        break;
    case RECORD_EVENT:
        hk_record_event(set, set_length, serial, serial_length, &record, event, event_value, setup, sizeof setup, bytes,
                        &count, &part);
        break;
    case TWO_OPEN:
        number = hk_two_open(set, set_length, high, high_length, serial, serial_length, image, sizeof image);
        break;
    case TWO_EVENT:
        hk_two_event(set, set_length, high, high_length, serial, serial_length, image, sizeof image, event, event_value, setup, sizeof setup,
                     bytes, &count, &part);
        break;
    case TWO_ENDPOINT:
        hk_two_endpoint(set, set_length, high, high_length, serial, serial_length, image, sizeof image, event_value, &part);
        break;
    case PORT_EVENT:
        hk_port_event(set, set_length, serial, serial_length, row, 2, 1, event, event_value, setup, sizeof setup, bytes, &count, &part);
        break;
    case TWO_PORT_EVENT:
        hk_two_port_event(set, set_length, high, high_length, serial, serial_length, row, 2, 1, event, event_value, setup, sizeof setup,
                          bytes, &count, &part);
        break;
    case TABLE_EVENT:
        hk_table_event(set, set_length, serial, serial_length, image, sizeof image, event, event_value, setup, sizeof setup, bytes, &count, &part);
        break;
    case TWO_TABLE_EVENT:
        hk_two_table_event(set, set_length, high, high_length, serial, serial_length, image, sizeof image, event, event_value, setup, sizeof setup,
                           bytes, &count, &part);
        break;
    case PIPE_EVENT:
    case PIPE_PACKET:
        hk_pipe_event(set, set_length, serial, serial_length, image, sizeof image, pipe_record, sizeof pipe_record, reply, sizeof reply, event,
                      pipe_value, setup, sizeof setup, out, &part);
        break;
    case TWO_PIPE_EVENT:
    case TWO_PIPE_PACKET:
        hk_two_pipe_event(set, set_length, high, high_length, serial, serial_length, image, sizeof image, pipe_record, sizeof pipe_record,
                          reply, sizeof reply, event, pipe_value, setup, sizeof setup, out, &part);
        break;
    case PACKET:
        hk_packet(set, set_length, UINT16_MAX, 8, event_value, &part);
        break;
    case EXPORT:
        hk_export(set, set_length, serial, serial_length, dump, sizeof dump, &written);
        break;
    case TRIM:
        hk_trim(trimmed, set_length, serial, serial_length, &written);
        break;
    case ENDPOINT:
        hk_endpoint(set, set_length, serial, serial_length, image, sizeof image, event_value, &part);
        break;
    default:
        break;
    }
    for (untouched = 0; untouched < sizeof stack && stack[untouched] == PAINT; untouched++)
        continue;
}

static size_t depth_of_call(void) {
    memset(stack, PAINT, sizeof stack);
    if (getcontext(&painted) != 0)
        exit(2);
    painted.uc_stack.ss_sp = stack;
    painted.uc_stack.ss_size = sizeof stack;
    painted.uc_link = &caller;
    makecontext(&painted, call, 0);
    if (swapcontext(&caller, &painted) != 0)
        exit(2);
    return sizeof stack - untouched;
}

/* The record is that of the image. */
static void measure(enum function measured) {
    size_t depth;
    function = measured;
    memcpy(&record, image, sizeof record);
    memcpy(row + 1, image, sizeof *row);
    if (measured == TRIM)
        memcpy(trimmed, set, sizeof trimmed);
    depth = depth_of_call();
    if (depth > deepest[measured])
        deepest[measured] = depth;
}

/* An event by its number, and by the call that is its own. */
static void measure_event(uint8_t measured, enum function alone) {
    event = measured;
    if (paired) {
        measure(TWO_PORT_EVENT);
        measure(TWO_TABLE_EVENT);
        measure(TWO_EVENT);
        return;
    }
    measure(RECORD_EVENT);
    measure(PORT_EVENT);
    measure(TABLE_EVENT);
    measure(alone);
}

/* An event of the pipe: one of setup, reset and a transfer's end opens the set, any other does not. */
static void measure_pipe(uint8_t measured, uint16_t value) {
    int opens = measured == HK_PIPE_SETUP || measured == HK_PIPE_RESET;
    event = measured;
    pipe_value = value;
    if (opens || (pipe_record[0] == HK_STAGE_STATUS_IN && measured == HK_PIPE_TAKEN))
        measure(paired ? TWO_PIPE_EVENT : PIPE_EVENT);
    else
        measure(paired ? TWO_PIPE_PACKET : PIPE_PACKET);
}

/* The transfer of a setup, and what may come in its stages, from the image as it is. */
static void measure_transfer(void) {
    uint8_t state[HK_IMAGE_LENGTH];
    memcpy(state, image, sizeof state);
    memset(pipe_record, PAINT, sizeof pipe_record);
    measure_pipe(HK_PIPE_SETUP, 0);
    if (out[0] == HK_ORDER_ASK)
        measure_pipe(setup[0] & 0x80 ? HK_PIPE_REPLY : HK_PIPE_ROOM, sizeof reply);
    for (int packet = 0; packet < 4 && out[0] == HK_ORDER_RECEIVE; packet++)
        measure_pipe(HK_PIPE_RECEIVED, (uint16_t)(out[4] | out[5] << 8));
    if (out[0] == HK_ORDER_ASK)
        measure_pipe(HK_PIPE_ACCEPT, 0);
    for (int packet = 0; packet < 4 && out[0] == HK_ORDER_SEND; packet++)
        measure_pipe(HK_PIPE_TAKEN, 0);
    event = HK_PIPE_RECEIVED;
    pipe_value = 0;
    measure(paired ? TWO_PIPE_EVENT : PIPE_EVENT);
    memcpy(image, state, sizeof state);
}

static void ask(uint8_t request_type, uint8_t code, uint16_t value, uint16_t index, uint16_t length) {
    const uint8_t asked[HK_SETUP_LENGTH] = {
        request_type, code, (uint8_t)value, (uint8_t)(value >> 8),
        (uint8_t)index, (uint8_t)(index >> 8), (uint8_t)length, (uint8_t)(length >> 8),
    };
    memcpy(setup, asked, sizeof setup);
    measure_transfer();
    measure_event(HK_EVENT_SETUP, SETUP);
}

/* Every request and every endpoint, in the state that the image is in. Each call starts from this image. */
static void measure_state(void) {
    static const uint8_t requests[17][3] = {
        {0x80, 0, 2}, {0x81, 0, 2}, {0x82, 0, 2}, {0x00, 1, 0}, {0x01, 1, 0}, {0x02, 1, 0}, {0x00, 3, 0}, {0x01, 3, 0},
        {0x02, 3, 0}, {0x00, 5, 0}, {0x80, 6, 255}, {0x80, 8, 1}, {0x00, 9, 0}, {0x81, 10, 1}, {0x01, 11, 0},
        {0xC0, 1, 200}, {0x40, 1, 200},
    };
    static const uint16_t values[] = {0, 1, 2, 0x0100, 0x0200, 0x0201, 0x0300, 0x0301, 0x0600, 0x0700};
    static const uint16_t indices[] = {0, 1, 0x0f, 0x81, 0x0100, 0x0409};
    uint8_t state[HK_IMAGE_LENGTH];
    memcpy(state, image, sizeof state);
    for (size_t request = 0; request < sizeof requests / sizeof *requests; request++)
        for (size_t value = 0; value < sizeof values / sizeof *values; value++)
            for (size_t index = 0; index < sizeof indices / sizeof *indices; index++) {
                memcpy(image, state, sizeof state);
                ask(requests[request][0], requests[request][1], values[value], indices[index], requests[request][2]);
            }
    for (int address = 0; address < 32; address++) {
        event_value = (uint8_t)(address % 16 | (address < 16 ? 0 : 0x80));
        memcpy(image, state, sizeof state);
        measure_event(HK_EVENT_HALT, HALT);
        memcpy(image, state, sizeof state);
        measure_event(HK_EVENT_PACKET_PASSED, PACKET_PASSED);
        memcpy(image, state, sizeof state);
        measure(paired ? TWO_ENDPOINT : ENDPOINT);
    }
    memcpy(image, state, sizeof state);
    event_value = HK_POWER_OWN;
    measure_event(HK_EVENT_POWER, POWER);
    memcpy(image, state, sizeof state);
    for (uint8_t number = HK_EVENT_SUSPEND; number <= HK_EVENT_WAKE; number++)
        measure_event(number, (enum function)(SUSPEND + number - HK_EVENT_SUSPEND));
    memcpy(image, state, sizeof state);
}

static void open_with(enum function opening) {
    measure(opening);
    if (number == HK_DONE)
        return;
    fprintf(stderr, "stack: a set was refused with %d\n", number);
    exit(2);
}

/* From Default through every state, with every configuration. */
static void measure_states(void) {
    measure_state();
    ask(0x00, 5, 5, 0, 0);
    measure_event(HK_EVENT_STATUS_END, STATUS_END);
    measure_state();
    for (uint16_t value = 1; value < 256; value++) {
        ask(0x00, 9, value, 0, 0);
        if (image[3] == value)
            measure_state();
    }
}

static void measure_set(void) {
    static const uint8_t numbers[] = {0, 1, 255};
    open_with(OPEN);
    measure_states();
    event_value = HK_SPEED_FULL;
    measure_pipe(HK_PIPE_RESET, HK_SPEED_FULL);
    measure(BUS_RESET_TO);
    measure_event(HK_EVENT_BUS_RESET, BUS_RESET);
    for (size_t at = 0; at < sizeof numbers; at++) {
        event_value = numbers[at];
        measure(PACKET);
    }
    measure(EXPORT);
    measure(TRIM);
}

/* Both speeds, and then a test mode. */
static void measure_pair(void) {
    paired = 1;
    open_with(TWO_OPEN);
    for (uint8_t speed = HK_SPEED_FULL; speed <= HK_SPEED_HIGH; speed++) {
        event_value = speed;
        measure_pipe(HK_PIPE_RESET, speed);
        measure_event(HK_EVENT_BUS_RESET, BUS_RESET_TO);
        measure_states();
    }
    ask(0x00, 3, 2, 0x0100, 0);
    measure_event(HK_EVENT_STATUS_END, STATUS_END);
    measure_state();
    paired = 0;
}

static size_t read_file(const char *path, uint8_t *to, size_t room) {
    FILE *file = fopen(path, "rb");
    size_t length;
    if (file == NULL) {
        perror(path);
        exit(2);
    }
    length = fread(to, 1, room, file);
    fclose(file);
    return length;
}

static int is_of_two(int function) {
    return function == TWO_OPEN || function == TWO_EVENT || function == TWO_ENDPOINT || function == TWO_PORT_EVENT ||
           function == TWO_PIPE_EVENT;
}

static size_t most_of(int function) {
    switch (function) {
    case TRIM: return MOST + ASIDE;
    case TABLE_EVENT:
    case TWO_TABLE_EVENT: return MOST_OF_TABLE;
    case PIPE_PACKET: return MOST_OF_PACKET;
    case TWO_PIPE_PACKET: return MOST_OF_TWO_PACKET;
    case PIPE_EVENT: return MOST_OF_PIPE;
    case TWO_PIPE_EVENT: return MOST_OF_TWO_PIPE;
    default: return is_of_two(function) ? MOST_OF_TWO : MOST;
    }
}

int main(int argument_count, char **arguments) {
    int too_deep = 0;
    if (argument_count < 6 || argument_count % 2 != 0) {
        fprintf(stderr, "usage: stack FULL HIGH SERIAL SET SERIAL [SET SERIAL]..\n");
        return 2;
    }
    measure(EMPTY);
    set_length = read_file(arguments[1], set, sizeof set);
    high_length = read_file(arguments[2], high, sizeof high);
    serial_length = read_file(arguments[3], serial, sizeof serial);
    measure_pair();
    for (int at = 4; at < argument_count; at += 2) {
        set_length = read_file(arguments[at], set, sizeof set);
        serial_length = read_file(arguments[at + 1], serial, sizeof serial);
        measure_set();
    }
    for (int at = OPEN; at < FUNCTIONS; at++) {
        size_t taken = deepest[at] > deepest[EMPTY] ? deepest[at] - deepest[EMPTY] : 0;
        size_t most = most_of(at);
        printf("  %5zu bytes of stack  %s%s\n", taken, names[at], taken > most ? "  TOO DEEP" : "");
        too_deep |= taken > most;
    }
    printf("stack: %s %d bytes at the most (with two sets lent %d, by the second way %d, packets of the pipe %d, hk_trim %d more) on a pair and %d sets\n",
           too_deep ? "OVER" : "within", MOST, MOST_OF_TWO, MOST_OF_TABLE, MOST_OF_PACKET, ASIDE, argument_count / 2 - 2);
    return too_deep;
}
