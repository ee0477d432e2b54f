/* header: heideklonk.h beside document 01 and the archive. Each constant has the page's number, each field of hk_record
 * stands where the image has it and holds what the calls put there, and a part of a set of NULL and 0 is NULL and valid. */
#include <stdio.h>
#include <string.h>

#include "../../firmware/sets.c" /* tools/cc compiles one source */

/* SET_ADDRESS 9, then remote wakeup, configuration 2 and alternate 1 of interface 1: the titrator's */
static const uint8_t set_address[] = {0x00, 5, 9, 0, 0, 0, 0, 0};
static const uint8_t set_wakeup[] = {0x00, 3, 1, 0, 0, 0, 0, 0};
static const uint8_t set_configuration[] = {0x00, 9, 2, 0, 0, 0, 0, 0};
static const uint8_t set_interface[] = {0x01, 11, 1, 0, 1, 0, 0, 0};

static int checked, failures;

static void expect(const char *what, unsigned long found, unsigned long expected) {
    checked++;
    if (found == expected)
        return;
    printf("header: %s is %lu, NOT %lu\n", what, found, expected);
    failures++;
}

#define EXPECT(what, expected) expect(#what, (unsigned long)(what), expected)

/* "Numbers given back" */
static void check_numbers(void) {
    EXPECT(HK_DONE, 0);
    EXPECT(HK_FRAME_BROKEN, 1);
    EXPECT(HK_CONTENTS_BROKEN, 2);
    EXPECT(HK_DEVICE_BROKEN, 3);
    EXPECT(HK_CONFIGURATION_BROKEN, 4);
    EXPECT(HK_STRING_BROKEN, 5);
    EXPECT(HK_SERIAL_BROKEN, 6);
    EXPECT(HK_SET_NOT_ACCEPTABLE, 7);
    EXPECT(HK_RECORD_DOES_NOT_FIT, 8);
    EXPECT(HK_SETUP_LENGTH_WRONG, 9);
    EXPECT(HK_REQUEST_UNKNOWN, 10);
    EXPECT(HK_NOT_IN_THIS_STATE, 11);
    EXPECT(HK_FIELD_WRONG, 12);
    EXPECT(HK_DOES_NOT_EXIST, 13);
    EXPECT(HK_NO_SUCH_FEATURE, 14);
    EXPECT(HK_NO_SUCH_PACKET, 15);
    EXPECT(HK_ENDPOINT_UNFIT, 16);
    EXPECT(HK_TEST_MODE_ENTERED, 17);
    EXPECT(HK_NO_SUCH_PORT, 18);
    EXPECT(HK_WAKE_NOT_ALLOWED, 19);
    EXPECT(HK_PAIR_BROKEN, 24);
}

/* the lengths, and the events in the order in which hk_record_event numbers them */
static void check_lengths_and_events(void) {
    EXPECT(HK_IMAGE_LENGTH, 32);
    EXPECT(HK_SETUP_LENGTH, 8);
    EXPECT(HK_EVENT_SETUP, 0);
    EXPECT(HK_EVENT_STATUS_END, 1);
    EXPECT(HK_EVENT_BUS_RESET, 2);
    EXPECT(HK_EVENT_HALT, 3);
    EXPECT(HK_EVENT_PACKET_PASSED, 4);
    EXPECT(HK_EVENT_POWER, 5);
    EXPECT(HK_EVENT_SUSPEND, 6);
    EXPECT(HK_EVENT_RESUME, 7);
    EXPECT(HK_EVENT_WAKE, 8);
    EXPECT(HK_SPEED_FULL, 0);
    EXPECT(HK_SPEED_HIGH, 1);
}

/* docs/PIPE.md: events, orders and stages */
static void check_pipe(void) {
    EXPECT(HK_PIPE_LENGTH, 16);
    EXPECT(HK_PIPE_SETUP, 0);
    EXPECT(HK_PIPE_TAKEN, 1);
    EXPECT(HK_PIPE_RECEIVED, 2);
    EXPECT(HK_PIPE_RESET, 3);
    EXPECT(HK_PIPE_REPLY, 4);
    EXPECT(HK_PIPE_ROOM, 5);
    EXPECT(HK_PIPE_ACCEPT, 6);
    EXPECT(HK_PIPE_REFUSE, 7);
    EXPECT(HK_ORDER_NOTHING, 0);
    EXPECT(HK_ORDER_SEND, 1);
    EXPECT(HK_ORDER_AWAIT, 2);
    EXPECT(HK_ORDER_RECEIVE, 3);
    EXPECT(HK_ORDER_STALL, 4);
    EXPECT(HK_ORDER_ASK, 5);
    EXPECT(HK_STAGE_IDLE, 0);
    EXPECT(HK_STAGE_ASKING_SETUP, 1);
    EXPECT(HK_STAGE_DATA_IN, 2);
    EXPECT(HK_STAGE_STATUS_OUT, 3);
    EXPECT(HK_STAGE_DATA_OUT, 4);
    EXPECT(HK_STAGE_ASKING_BYTES, 5);
    EXPECT(HK_STAGE_STATUS_IN, 6);
    EXPECT(HK_STAGE_STALLED, 7);
}

/* "The device record": each field at its byte of the image */
static void check_places(void) {
    EXPECT(sizeof(hk_record), 32);
    EXPECT(offsetof(hk_record, state), 0);
    EXPECT(offsetof(hk_record, address), 1);
    EXPECT(offsetof(hk_record, waiting), 2);
    EXPECT(offsetof(hk_record, configuration), 3);
    EXPECT(offsetof(hk_record, wakeup), 4);
    EXPECT(offsetof(hk_record, power), 5);
    EXPECT(offsetof(hk_record, suspended), 6);
    EXPECT(offsetof(hk_record, speed), 7);
    EXPECT(offsetof(hk_record, alternates), 8);
    EXPECT(sizeof ((hk_record *)0)->alternates, 16);
    EXPECT(offsetof(hk_record, halts), 24);
    EXPECT(offsetof(hk_record, toggles), 28);
    EXPECT(offsetof(hk_part, start), 0);
    EXPECT(offsetof(hk_part, length), sizeof(const uint8_t *));
}

/* One event on the titrator's record, by its number. */
static void happen(hk_record *record, uint8_t event, uint8_t endpoint, const uint8_t *setup) {
    uint8_t bytes[2], count;
    hk_part part = HK_NO_PART;
    const hk_board *board = &titrator_board;
    uint8_t number = hk_record_event(board->set, board->set_length, board->serial, board->serial_length, record, event,
                                     endpoint, setup, setup == NULL ? 0 : HK_SETUP_LENGTH, bytes, &count, &part);
    expect("an event's number", number, HK_DONE);
}

/* What each field holds when the events that change it have passed. */
static void check_fields(void) {
    hk_record record;
    const hk_board *board = &titrator_board;
    memset(&record, 0xA5, sizeof record);
    uint8_t number = hk_open(board->set, board->set_length, board->serial, board->serial_length, (uint8_t *)&record,
                             sizeof record);
    expect("opening's number", number, HK_DONE);
    EXPECT(record.waiting, 255);
    happen(&record, HK_EVENT_SETUP, 0, set_address);
    EXPECT(record.waiting, 9);
    happen(&record, HK_EVENT_STATUS_END, 0, NULL);
    EXPECT(record.state, 1);
    EXPECT(record.address, 9);
    happen(&record, HK_EVENT_SETUP, 0, set_wakeup);
    EXPECT(record.wakeup, 1);
    happen(&record, HK_EVENT_SETUP, 0, set_configuration);
    EXPECT(record.configuration, 2);
    happen(&record, HK_EVENT_SETUP, 0, set_interface);
    EXPECT(record.alternates[1], 1);
    happen(&record, HK_EVENT_PACKET_PASSED, 0x01, NULL);
    EXPECT(record.toggles, 1ul << 1);
    happen(&record, HK_EVENT_HALT, 0x84, NULL);
    EXPECT(record.halts, 1ul << (16 + 4));
    EXPECT(record.power + record.suspended + record.speed, 0);
    happen(&record, HK_EVENT_BUS_RESET, 0, NULL);
    EXPECT(record.state + record.address + record.wakeup, 0);
}

/* A set of NULL and 0 leaves a part whose start is NULL, and that is a valid part at the next call. */
static void check_null(void) {
    uint8_t image[HK_IMAGE_LENGTH] = {0, 0, 255}, bytes[2], count;
    hk_part part = HK_NO_PART;
    for (int call = 0; call < 2; call++) {
        uint8_t number = hk_setup(NULL, 0, NULL, 0, image, sizeof image, set_address, sizeof set_address, bytes, &count,
                                  &part);
        expect("a setup's number", number, HK_SET_NOT_ACCEPTABLE);
        EXPECT(part.start == NULL, 1);
        EXPECT(part.length, 0);
    }
    uint8_t pipe[HK_PIPE_LENGTH] = {0}, out[6];
    EXPECT(hk_pipe_event(NULL, 0, NULL, 0, image, sizeof image, pipe, sizeof pipe, NULL, 0, HK_PIPE_SETUP, 0, set_address,
                         sizeof set_address, out, &part), HK_SET_NOT_ACCEPTABLE);
    EXPECT(part.start == NULL, 1);
    EXPECT(out[0], HK_ORDER_STALL);
    EXPECT(hk_endpoint(NULL, 0, NULL, 0, image, sizeof image, 0, &part), HK_SET_NOT_ACCEPTABLE);
    EXPECT(part.start == NULL, 1);
    EXPECT(hk_packet(NULL, 0, 0, 8, 0, &part), HK_NO_SUCH_PACKET);
    EXPECT(part.start == NULL, 1);
    EXPECT(hk_packet(NULL, 0, 1, 8, 0, &part), HK_DONE);
    EXPECT(part.start == NULL, 1);
    EXPECT(part.length, 0);
}

int main(void) {
    check_numbers();
    check_lengths_and_events();
    check_pipe();
    check_places();
    check_fields();
    check_null();
    printf("header: %d checked, %d wrong\n", checked, failures);
    return failures != 0;
}
