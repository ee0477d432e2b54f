/* Random events on the sets of firmware/sets.c and on damaged copies of them; the run is the same each time. The test that includes this says what is done
 * at an event. */
#include <stdio.h>
#include <stdlib.h>
#include <string.h>

#include "../../firmware/sets.c" /* tools/cc compiles one source */

#define DAMAGED_COPIES 24
#define MOST_SET 1024
#define SET_ADDRESS 5
#define FIRST_OTHER_EVENT 9 /* no event has this number or a higher one */

/* One event; what it does not read is 0. */
struct event {
    uint8_t kind, value, setup[HK_SETUP_LENGTH + 1];
    size_t setup_length;
};

static const uint8_t *set, *serial;
static size_t set_length, serial_length;
static uint8_t image[HK_IMAGE_LENGTH];
static hk_record record;

static uint32_t below(uint32_t limit) {
    static uint64_t state = 0x9E3779B97F4A7C15;
    state ^= state << 13;
    state ^= state >> 7;
    state ^= state << 17;
    return (uint32_t)(state >> 32) % limit;
}

static uint8_t one_of(const uint8_t *choices, uint32_t count) {
    return choices[below(count)];
}

static uint8_t random_endpoint(void) {
    return (uint8_t)(below(8) == 0 ? below(256) : below(6) | (below(2) ? 0x80 : 0));
}

/* Mostly a row of the request table with fields near what it asks for, now and then any bytes or another length. */
static void random_setup(struct event *event) {
    static const uint8_t rows[15][3] = {
        {0x80, 0, 2}, {0x81, 0, 2}, {0x82, 0, 2}, {0x00, 1, 0}, {0x01, 1, 0}, {0x02, 1, 0}, {0x00, 3, 0}, {0x01, 3, 0},
        {0x02, 3, 0}, {0x00, 5, 0}, {0x80, 6, 255}, {0x80, 8, 1}, {0x00, 9, 0}, {0x81, 10, 1}, {0x01, 11, 0},
    };
    static const uint8_t types[] = {0, 0, 0, 0, 1, 2, 3, 3, 6};
    static const uint8_t languages[] = {0, 0, 0, 0, 0, 4};
    const uint8_t *row = rows[below(15)];
    uint8_t *setup = event->setup;
    setup[0] = row[0];
    setup[1] = row[1];
    setup[2] = (uint8_t)(below(4) ? 1 + below(3) : 0);
    setup[3] = row[1] == 6 ? one_of(types, sizeof types) : 0;
    setup[4] = row[0] & 3 ? random_endpoint() : (uint8_t)(below(3) ? 0 : below(12));
    setup[5] = one_of(languages, sizeof languages);
    setup[6] = row[1] == 6 ? (uint8_t)below(256) : row[2];
    setup[7] = 0;
    if (below(16) == 0)
        setup[below(HK_SETUP_LENGTH)] = (uint8_t)below(256);
    event->setup_length = below(64) == 0 ? below(sizeof event->setup + 1) : HK_SETUP_LENGTH;
}

static struct event random_event(void) {
    static const uint8_t function_events[] = {HK_EVENT_HALT, HK_EVENT_PACKET_PASSED};
    static const uint8_t sleep_events[] = {HK_EVENT_SUSPEND, HK_EVENT_SUSPEND, HK_EVENT_RESUME, HK_EVENT_WAKE};
    struct event event = {HK_EVENT_SETUP, 0, {0}, 0};
    uint32_t choice = below(64);
    if (choice < 40) {
        random_setup(&event);
    } else if (choice < 50) {
        event.kind = HK_EVENT_STATUS_END;
    } else if (choice < 51) {
        event.kind = below(8) == 0 ? HK_EVENT_BUS_RESET : HK_EVENT_STATUS_END;
    } else if (choice < 54) {
        event.kind = one_of(sleep_events, sizeof sleep_events);
    } else if (choice < 62) {
        event.kind = one_of(function_events, sizeof function_events);
        event.value = random_endpoint();
    } else if (choice < 63) {
        event.kind = HK_EVENT_POWER;
        event.value = (uint8_t)(below(4) ? below(2) : below(256));
    } else {
        random_setup(&event); /* no setup reads it */
        event.kind = (uint8_t)(FIRST_OTHER_EVENT + below(256 - FIRST_OTHER_EVENT));
    }
    return event;
}

/* Any other event number is a setup of a wrong length. */
static inline hk_answer on_image(uint8_t *image, const struct event *event) {
    hk_answer answer = {255, {0, 0}, 0, {set, 0}};
    size_t setup_length = event->kind == HK_EVENT_SETUP ? event->setup_length : 0;
    switch (event->kind) {
    case HK_EVENT_STATUS_END:
        answer.number = hk_status_end(set, set_length, serial, serial_length, image, HK_IMAGE_LENGTH);
        break;
    case HK_EVENT_BUS_RESET:
        answer.number = hk_bus_reset(set, set_length, serial, serial_length, image, HK_IMAGE_LENGTH);
        break;
    case HK_EVENT_HALT:
        answer.number = hk_halt(set, set_length, serial, serial_length, image, HK_IMAGE_LENGTH, event->value);
        break;
    case HK_EVENT_PACKET_PASSED:
        answer.number = hk_packet_passed(set, set_length, serial, serial_length, image, HK_IMAGE_LENGTH, event->value);
        break;
    case HK_EVENT_SUSPEND:
        answer.number = hk_suspend(set, set_length, serial, serial_length, image, HK_IMAGE_LENGTH);
        break;
    case HK_EVENT_RESUME:
        answer.number = hk_resume(set, set_length, serial, serial_length, image, HK_IMAGE_LENGTH);
        break;
    case HK_EVENT_WAKE:
        answer.number = hk_wake(set, set_length, serial, serial_length, image, HK_IMAGE_LENGTH);
        break;
    case HK_EVENT_POWER:
        answer.number = hk_power(set, set_length, serial, serial_length, image, HK_IMAGE_LENGTH, event->value);
        break;
    default:
        answer.number = hk_setup(set, set_length, serial, serial_length, image, HK_IMAGE_LENGTH, event->setup, setup_length,
                                 answer.bytes, &answer.count, &answer.part);
    }
    return answer;
}

static inline hk_answer on_record(hk_record *record, const struct event *event) {
    hk_answer answer = {255, {0xA5, 0xA5}, 0xA5, {event->setup, 3}};
    answer.number = hk_record_event(set, set_length, serial, serial_length, record, event->kind, event->value,
                                    event->setup_length == 0 ? NULL : event->setup, event->setup_length, answer.bytes,
                                    &answer.count, &answer.part);
    return answer;
}

/* Does an event on `image` and on `record`, and looks at what it did. */
static void at_event(const struct event *event);

static void open_both(void) {
    uint8_t number = hk_open(set, set_length, serial, serial_length, image, sizeof image);
    if (hk_open(set, set_length, serial, serial_length, (uint8_t *)&record, sizeof record) == number &&
        memcmp(image, &record, sizeof image) == 0)
        return;
    printf("opening differs on the record\n");
    exit(1);
}

/* An address mostly gets its status end. Now and then one byte of the record is changed; a few events later opening mends
 * it. */
static void run_events(unsigned long events) {
    static const struct event status_end = {HK_EVENT_STATUS_END, 0, {0}, 0};
    int damaged = 0;
    open_both();
    while (events-- > 0) {
        struct event event = random_event();
        if (damaged && below(8) == 0) {
            open_both();
            damaged = 0;
        } else if (below(1024) == 0) {
            uint32_t at = below(sizeof image);
            image[at] = ((uint8_t *)&record)[at] = (uint8_t)below(below(2) ? 4 : 256);
            damaged = 1;
        }
        at_event(&event);
        if (event.kind == HK_EVENT_SETUP && event.setup[1] == SET_ADDRESS && below(4) > 0)
            at_event(&status_end);
    }
}

/* Copies with one byte changed, one byte short, and with another serial block: fewer events, since most are refused. */
static void run_board(const hk_board *board, unsigned long events) {
    static uint8_t copy[MOST_SET];
    set = board->set;
    set_length = board->set_length;
    serial = board->serial;
    serial_length = board->serial_length;
    run_events(events);
    set = copy;
    for (int number = 0; number < DAMAGED_COPIES; number++) {
        memcpy(copy, board->set, set_length);
        copy[below((uint32_t)set_length)] = (uint8_t)below(256);
        run_events(events / 100);
    }
    memcpy(copy, board->set, set_length);
    set_length--;
    run_events(events / 100);
    set_length++;
    serial = copy;
    serial_length = 4;
    run_events(events / 100);
}
