/* ports_host: two bench hosts enumerate a double instrument, a titrator at each of its two ports, with their events interleaved.
 *
 * Ends with 0; with 1 where the device did not do what a host expects, or an event at one port changed the other's record. */
#include <stdio.h>
#include <string.h>

#include "../../firmware/sets.h"
#include "transfers.h"
#include "words.h"

#define PORTS 2
#define UNWRITTEN 0xA5

static hk_record row[PORTS];
static struct host hosts[PORTS];
static const hk_board *const boards[PORTS] = {&titrator_board, &second_titrator_board};
static const uint8_t addresses[PORTS] = {5, 6};

/* The other port's record, as it was when this port was turned to. */
static hk_record neighbour;
static unsigned here;
static int told; /* the transcript says which port */

static void check_neighbour(void) {
    if (memcmp(&neighbour, &row[1 - here], sizeof neighbour) != 0)
        fail(&hosts[here], "the other port's record has changed");
}

/* The host at a port. */
static struct host *at(unsigned port) {
    check_neighbour();
    if (port != here || !told)
        printf("-- port %u\n", port);
    here = port;
    told = 1;
    neighbour = row[1 - port];
    wire_select(port);
    return &hosts[port];
}

static void heading(const char *text) {
    printf("\n# %s\n", text);
    told = 0;
}

static void start(unsigned port) {
    struct host *host = at(port);
    struct device *device = &host->device;
    memset(device, UNWRITTEN, sizeof *device); /* memory at power-on */
    memset(&row[port], UNWRITTEN, sizeof row[port]);
    device->row = row;
    device->row_length = PORTS;
    device->port = port;
    wire_attach(device, NULL);
    uint8_t number = device_start(device, boards[port]);
    printf("power on: %s\n", number == HK_DONE ? "the set and this port's serial block are accepted" : number_in_words(number));
    if (number != HK_DONE)
        fail(host, "the set was refused");
    show_record(host, "");
}

static void reset_port(unsigned port) {
    struct host *host = at(port);
    reset_bus(host);
    host->packet_size = 64;
}

static void get_device(unsigned port) {
    ask(at(port), 0x80, GET_DESCRIPTOR, TYPE_DEVICE << 8, 0, 18, HK_DONE);
}

/* The setup stage alone: the address waits. */
static void begin_set_address(unsigned port, uint8_t *setup) {
    struct host *host = at(port);
    fill_setup(setup, 0x00, SET_ADDRESS, addresses[port], 0, 0);
    print_setup(setup);
    printf(", its status stage comes later\n");
    if (begin_transfer(host, setup) != HK_DONE)
        fail(host, "the address was refused");
    show_record(host, "");
}

static void end_set_address(unsigned port, const uint8_t *setup) {
    struct host *host = at(port);
    printf("the status stage\n");
    end_transfer_with_status(host, setup, HK_DONE);
    host->address = addresses[port];
    show_record(host, " after the status stage");
}

/* An address waits at one port, all else happens at the other, and it is taken all the same. */
static void address_across(void) {
    uint8_t first[HK_SETUP_LENGTH], second[HK_SETUP_LENGTH];
    heading("Two addresses: each waits at its own port, whatever happens at the other");
    begin_set_address(0, first);
    get_device(1);
    begin_set_address(1, second);
    end_set_address(0, first);
    reset_port(1);
    begin_set_address(1, second);
    get_device(0);
    end_set_address(1, second);
}

static void read_serial_numbers(void) {
    uint8_t serials[PORTS][64];
    heading("One set, two serial numbers");
    for (unsigned port = 0; port < PORTS; port++) {
        struct host *host = at(port);
        ask(host, 0x80, GET_DESCRIPTOR, TYPE_STRING << 8 | 2, 0x0409, 255, HK_DONE);
        ask(host, 0x80, GET_DESCRIPTOR, TYPE_STRING << 8 | 3, 0x0409, 255, HK_DONE);
        memset(serials[port], 0, sizeof serials[port]);
        memcpy(serials[port], host->bytes, host->length < sizeof serials[port] ? host->length : sizeof serials[port]);
    }
    if (memcmp(serials[0], serials[1], sizeof serials[0]) == 0)
        fail(at(0), "both ports have the same serial number");
}

static void use_both(void) {
    heading("Both are used, in turn: halts, toggles, settings, supply and sleep are each port's own");
    ask(at(0), 0x00, SET_CONFIGURATION, 2, 0, 0, HK_DONE);
    pass_packet(at(0), 0x81);
    ask(at(1), 0x00, SET_CONFIGURATION, 2, 0, 0, HK_DONE);
    ask(at(1), 0x01, SET_INTERFACE, 1, 1, 0, HK_DONE);
    pass_packet(at(0), 0x81);
    pass_packet(at(1), 0x81);
    ask(at(0), 0x02, SET_FEATURE, ENDPOINT_HALT, 0x81, 0, HK_DONE);
    if (!pass_packet(at(1), 0x81))
        fail(at(1), "a halt at the other port stops it");
    printf("the bus at port 1 falls silent\n");
    wire_suspend();
    show_record(at(1), "");
    ask(at(0), 0x82, GET_STATUS, 0, 0x81, 2, HK_DONE);
    at(0);
    wire_change_power(HK_POWER_OWN);
    printf("the instrument at port 0 draws from its own supply\n");
    show_record(at(0), "");
    reset_port(0);
    at(1);
    wire_resume();
    printf("the host at port 1 resumes the bus\n");
    show_record(at(1), "");
    ask(at(1), 0x80, GET_CONFIGURATION, 0, 0, 1, HK_DONE);
}

/* A board that names a port that it does not have. */
static void name_missing_port(void) {
    hk_record before[PORTS];
    heading("A port that is not there");
    memcpy(before, row, sizeof row);
    uint8_t number = hk_port_tell(boards[0], row, PORTS, PORTS, HK_EVENT_BUS_RESET, HK_SPEED_FULL);
    printf("a bus reset at port %u: %u, %s\n", PORTS, number, number_in_words(number));
    if (number != HK_NO_SUCH_PORT || memcmp(before, row, sizeof row) != 0)
        fail(at(0), "it was not refused, or a record has changed");
}

int main(void) {
    start(0);
    start(1);
    heading("The bus at each port is reset");
    reset_port(0);
    reset_port(1);
    get_device(0);
    get_device(1);
    address_across();
    read_serial_numbers();
    use_both();
    name_missing_port();
    check_neighbour();
    int failures = hosts[0].failures + hosts[1].failures;
    printf("\nend of the transcript: %d failed\n", failures);
    return failures != 0;
}
