#include "drivers.h"

#include <stdio.h>
#include <string.h>

#include "words.h"

/* SET_INTERFACE, and at most three events for each of 30 endpoints */
#define MOST_EVENTS (1 + 3 * 30)

/* A setup or, where setup_length is 0, a packet on an endpoint; then its answer. */
struct driver_event {
    uint8_t setup_length, setup[HK_SETUP_LENGTH], endpoint;
    uint8_t number;
    size_t answer_length;
    uint8_t answer[2];
};

struct driver {
    unsigned interface;
    size_t count, next;
    struct driver_event events[MOST_EVENTS];
};

static struct driver_event *add_event(struct driver *driver, uint8_t endpoint) {
    struct driver_event *event = &driver->events[driver->count++];
    event->endpoint = endpoint;
    return event;
}

static void add_setup(struct driver *driver, uint8_t type, uint8_t code, unsigned value, unsigned index,
                      unsigned length) {
    struct driver_event *event = add_event(driver, 0);
    event->setup_length = HK_SETUP_LENGTH;
    fill_setup(event->setup, type, code, value, index, length);
}

/* A packet unless it is isochronous, then halt and status: one bit of each kind, and an answer that shows one. */
static void add_endpoint(struct driver *driver, const uint8_t *endpoint) {
    if ((endpoint[3] & 3) != 1)
        add_event(driver, endpoint[2]);
    add_setup(driver, 0x02, SET_FEATURE, ENDPOINT_HALT, endpoint[2], 0);
    add_setup(driver, 0x82, GET_STATUS, 0, endpoint[2], 2);
}

/* The driver takes its interface's last alternate setting and uses the endpoints there. */
static void plan(struct driver *driver, unsigned interface, const uint8_t *body, size_t body_length) {
    int mine = 0;
    memset(driver, 0, sizeof *driver);
    driver->interface = interface;
    for (size_t at = 0; at < body_length; at = next_descriptor(body, body_length, at)) {
        const uint8_t *descriptor = body + at;
        if (descriptor[1] == TYPE_INTERFACE) {
            mine = descriptor[2] == interface;
            if (mine) {
                driver->count = 0;
                memset(driver->events, 0, sizeof driver->events);
                add_setup(driver, 0x01, SET_INTERFACE, descriptor[3], interface, 0);
            }
        }
        if (mine && descriptor[1] == TYPE_ENDPOINT)
            add_endpoint(driver, descriptor);
    }
}

static void print_event(const struct driver *driver, const struct driver_event *event) {
    printf("  driver of interface %u: ", driver->interface);
    if (event->setup_length > 0)
        print_setup(event->setup);
    else
        printf("packet on endpoint %02X", event->endpoint);
    printf(" -> ");
    if (event->number != HK_DONE)
        printf("STALL, %u: %s", event->number, number_in_words(event->number));
    else if (event->answer_length > 0)
        print_bytes(event->answer, event->answer_length);
    else
        printf("done");
    putchar('\n');
}

static void take_next(struct host *host, struct driver *driver) {
    struct driver_event *event = &driver->events[driver->next++];
    host->length = 0;
    if (event->setup_length > 0) {
        event->number = begin_transfer(host, event->setup);
        end_transfer_with_status(host, event->setup, event->number);
    } else {
        if (wire_pass_packet(event->endpoint) != WIRE_DONE)
            fail(host, "the endpoint is halted");
        event->number = wire_heard();
    }
    event->answer_length = host->length;
    memcpy(event->answer, host->bytes, host->length <= 2 ? host->length : 2);
    print_event(driver, event);
}

static int has_next(const struct driver *driver) {
    return driver->next < driver->count;
}

/* Both in the same configuration, afresh. */
static void run_both(struct host *host, struct driver *drivers, int in_turns, unsigned configuration) {
    ask(host, 0x00, SET_CONFIGURATION, configuration, 0, 0, HK_DONE);
    drivers[0].next = drivers[1].next = 0;
    unsigned turn = in_turns ? 1 : 0;
    while (has_next(&drivers[0]) || has_next(&drivers[1])) {
        if (!has_next(&drivers[turn]))
            turn = !turn;
        take_next(host, &drivers[turn]);
        if (in_turns)
            turn = !turn;
    }
    show_record(host, "");
}

void exchange_drivers(struct host *host, const uint8_t *body, size_t body_length) {
    static struct driver first[2], second[2];
    uint8_t record[HK_IMAGE_LENGTH];
    for (unsigned interface = 0; interface < 2; interface++)
        plan(&first[interface], interface, body, body_length);
    memcpy(second, first, sizeof second);
    printf("one after the other\n");
    run_both(host, first, 0, body[5]);
    memcpy(record, device_record(&host->device), sizeof record);
    printf("in turns, the other first\n");
    run_both(host, second, 1, body[5]);
    int alike = memcmp(first, second, sizeof first) == 0 && memcmp(record, device_record(&host->device), sizeof record) == 0;
    if (alike)
        printf("both orders: the same answers and the same record\n");
    else
        fail(host, "the two orders end differently");
}
