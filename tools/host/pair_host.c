/* pair_host: a bench host enumerates the titrator's pair of sets at both speeds, and puts it into a test mode.
 * pair_host --write FULL HIGH SERIAL: writes the built-in flash to three files.
 *
 * Ends with 0; with 1 where the pair was refused or the device did not do what a host expects. */
#include <stdio.h>
#include <string.h>

#include "../../firmware/sets.h"
#include "transfers.h"
#include "words.h"

#define ADDRESS 5
#define UNWRITTEN 0xA5
#define MOST_BODY 1024

/* USB 2.0, table 9-7; 9 is none. */
#define TEST_SE0_NAK 3
#define TEST_PACKET 4
#define NO_TEST 9

/* What the host has learnt of the device at one speed. */
struct learnt {
    uint8_t device[18];
    uint8_t body[MOST_BODY], other[MOST_BODY];
    size_t body_length, other_length;
    uint8_t qualifier[10];
};

static void heading(const char *text) {
    printf("\n# %s\n", text);
}

static void get_descriptor(struct host *host, unsigned type, unsigned length, uint8_t *into, size_t room) {
    ask(host, 0x80, GET_DESCRIPTOR, type << 8, 0, length, HK_DONE);
    if (host->length > room)
        fail(host, "it is longer than the host expects");
    else
        memcpy(into, host->bytes, host->length);
}

static void reset_to(struct host *host, uint8_t speed) {
    reset_bus_to(host, speed);
    host->packet_size = 64;
}

static void set_address(struct host *host) {
    ask(host, 0x00, SET_ADDRESS, ADDRESS, 0, 0, HK_DONE);
    host->address = ADDRESS;
}

/* What chapter 9 has a host ask for at either speed. */
static void enumerate_at(struct host *host, uint8_t speed, struct learnt *learnt) {
    heading(speed == HK_SPEED_HIGH ? "High speed: the other set answers" : "Full speed: what the titrator is, and what it is at the other speed");
    reset_to(host, speed);
    get_descriptor(host, TYPE_DEVICE, 18, learnt->device, sizeof learnt->device);
    set_address(host);
    get_descriptor(host, TYPE_DEVICE_QUALIFIER, 10, learnt->qualifier, sizeof learnt->qualifier);
    get_descriptor(host, TYPE_CONFIGURATION, MOST_BODY, learnt->body, sizeof learnt->body);
    learnt->body_length = host->length;
    get_descriptor(host, TYPE_OTHER_SPEED_CONFIGURATION, MOST_BODY, learnt->other, sizeof learnt->other);
    learnt->other_length = host->length;
    ask(host, 0x80, GET_DESCRIPTOR, TYPE_STRING << 8 | learnt->device[15], 0x0409, 255, HK_DONE);
    ask(host, 0x80, GET_DESCRIPTOR, TYPE_STRING << 8 | learnt->device[16], 0x0409, 255, HK_DONE);
    ask(host, 0x00, SET_CONFIGURATION, learnt->body[5], 0, 0, HK_DONE);
    pass_packet(host, 0x81);
    ask(host, 0x01, SET_INTERFACE, 1, 1, 0, HK_DONE);
}

/* What a device says of the other speed is what it says there. */
static void compare_speeds(struct host *host, const struct learnt *here, const struct learnt *there) {
    int qualifier = here->qualifier[0] == 10 && memcmp(here->qualifier + 2, there->device + 2, 6) == 0 &&
                    here->qualifier[8] == there->device[17] && here->qualifier[9] == 0;
    int body = here->other_length == there->body_length && here->other[0] == there->body[0] &&
               memcmp(here->other + 2, there->body + 2, here->other_length - 2) == 0;
    printf("its device_qualifier and other_speed_configuration %s\n", qualifier && body ? "hold" : "do NOT hold");
    if (!qualifier || !body)
        fail(host, "the device is another at the other speed");
}

static void ask_test_mode(struct host *host, unsigned selector, uint8_t expected) {
    ask(host, 0x00, SET_FEATURE, TEST_MODE, selector << 8, 0, expected);
}

static void refuse_test_modes(struct host *host) {
    uint8_t setup[HK_SETUP_LENGTH];
    heading("Test modes that are not entered");
    reset_to(host, HK_SPEED_FULL);
    ask_test_mode(host, TEST_PACKET, HK_NOT_IN_THIS_STATE);
    set_address(host);
    ask_test_mode(host, TEST_PACKET, HK_NO_SUCH_FEATURE);
    reset_to(host, HK_SPEED_HIGH);
    ask_test_mode(host, NO_TEST, HK_NO_SUCH_FEATURE);
    ask(host, 0x00, SET_FEATURE, TEST_MODE, TEST_PACKET << 8 | 1, 0, HK_FIELD_WRONG);
    fill_setup(setup, 0x00, SET_FEATURE, TEST_MODE, TEST_PACKET << 8, 0);
    print_setup(setup);
    printf(", no status stage\n");
    if (begin_transfer(host, setup) != HK_DONE)
        fail(host, "the test mode was refused");
    show_record(host, "");
    ask(host, 0x80, GET_DESCRIPTOR, TYPE_DEVICE << 8, 0, 18, HK_DONE); /* drops it */
    if (wire_test_mode() != 0)
        fail(host, "the peripheral was told to enter a test mode");
}

static void enter_test_mode(struct host *host, const struct learnt *learnt) {
    heading("A test mode, entered when its status stage has ended; only power-on ends it");
    set_address(host);
    ask(host, 0x00, SET_CONFIGURATION, learnt->body[5], 0, 0, HK_DONE);
    ask_test_mode(host, TEST_SE0_NAK, HK_DONE);
    printf("the peripheral enters test mode %u\n", wire_test_mode());
    if (wire_test_mode() != TEST_SE0_NAK)
        fail(host, "it is another test mode");
    ask(host, 0x80, GET_DESCRIPTOR, TYPE_DEVICE << 8, 0, 18, HK_TEST_MODE_ENTERED);
    ask_test_mode(host, TEST_PACKET, HK_TEST_MODE_ENTERED);
    printf("bus reset, which changes nothing\n");
    wire_reset_bus(HK_SPEED_FULL);
    show_fault(wire_heard());
    show_record(host, "");
    ask(host, 0x80, GET_STATUS, 0, 0, 2, HK_TEST_MODE_ENTERED);
}

static void start(struct host *host, const hk_board *board) {
    uint8_t number = device_start(&host->device, board);
    if (number != HK_DONE)
        print_refusal(number);
    else
        printf("power on, the two sets are accepted\n");
    if (number != HK_DONE)
        fail(host, "the pair was refused");
    show_record(host, "");
}

/* A byte of type 7 that differs: the two sets no longer go together. */
static void mistake_pair(struct host *host, const hk_board *board) {
    static uint8_t high[MOST_BODY];
    hk_board mistaken = *board;
    heading("One byte of the high-speed set's type 7 is another, as where a maker changes one set and forgets the other");
    memcpy(high, board->high, board->high_length);
    high[board->high_length - 1] ^= 1;
    mistaken.high = high;
    uint8_t number = device_start(&host->device, &mistaken);
    print_refusal(number);
    if (number != HK_PAIR_BROKEN)
        fail(host, "it was accepted, or refused for something else");
    show_fault(wire_heard());
}

static int enumerate(const hk_board *board) {
    static struct host host;
    static struct learnt full, high;
    memset(&host.device, UNWRITTEN, sizeof host.device); /* memory at power-on */
    wire_attach(&host.device, NULL);
    start(&host, board);
    enumerate_at(&host, HK_SPEED_FULL, &full);
    enumerate_at(&host, HK_SPEED_HIGH, &high);
    heading("Each speed says of the other what is so there");
    compare_speeds(&host, &full, &high);
    compare_speeds(&host, &high, &full);
    refuse_test_modes(&host);
    enter_test_mode(&host, &high);
    heading("Power off and on");
    start(&host, board);
    mistake_pair(&host, board);
    printf("\nend of the transcript: %d failed\n", host.failures);
    return host.failures != 0;
}

static int write_file(const char *name, const uint8_t *bytes, size_t length) {
    FILE *file = fopen(name, "wb");
    if (file == NULL)
        return 0;
    size_t written = fwrite(bytes, 1, length, file);
    return fclose(file) == 0 && written == length;
}

int main(int count, char **arguments) {
    const hk_board *board = &titrator_pair_board;
    if (count == 5 && strcmp(arguments[1], "--write") == 0)
        return !(write_file(arguments[2], board->set, board->set_length) &&
                 write_file(arguments[3], board->high, board->high_length) &&
                 write_file(arguments[4], board->serial, board->serial_length));
    if (count != 1) {
        fprintf(stderr, "usage: pair_host [--write FULL HIGH SERIAL]\n");
        return 2;
    }
    return enumerate(board);
}
