/* host bench | titrator | SET [SERIAL]: a bench host enumerates the device loop of firmware/ and tells what passes.
 * host --write bench | titrator SET SERIAL: writes the built-in flash to two files.
 *
 * Ends with 0; with 1 where the set was refused or the device did not do what a host expects. */
#include <stdio.h>
#include <string.h>

#include "../../firmware/sets.h"
#include "drivers.h"
#include "transfers.h"
#include "words.h"

#define ADDRESS 5
#define INTERRUPTED_ADDRESS 9
#define UNWRITTEN 0xA5
#define MOST_CONFIGURATIONS 8
#define MOST_BODY 16384
#define MOST_FILE 65536

/* What the host has learnt of the device. */
struct learnt {
    unsigned configurations;
    struct body {
        uint8_t bytes[MOST_BODY];
        size_t length;
    } bodies[MOST_CONFIGURATIONS];
    uint8_t refers[256]; /* string indices that some descriptor names */
    unsigned languages[127], language_count;
    int wakeup, own_supply; /* some configuration's attributes say so */
};

static void heading(const char *text) {
    printf("\n# %s\n", text);
}

static void get_descriptor(struct host *host, unsigned type, unsigned index, unsigned language, unsigned length,
                           uint8_t expected) {
    ask(host, 0x80, GET_DESCRIPTOR, type << 8 | index, language, length, expected);
}

static void learn_packet_size(struct host *host) {
    heading("The bus is reset; 8 bytes of the device descriptor tell bMaxPacketSize0");
    reset_bus(host);
    host->packet_size = 64;
    get_descriptor(host, TYPE_DEVICE, 0, 0, 8, HK_DONE);
    host->packet_size = host->bytes[7];
    reset_bus(host);
    get_descriptor(host, TYPE_DEVICE, 0, 0, 64, HK_DONE);
    get_descriptor(host, TYPE_DEVICE, 0, 0, 0, HK_DONE);
}

static void err_in_default(struct host *host) {
    heading("What the state Default refuses");
    ask(host, 0x80, GET_CONFIGURATION, 0, 0, 1, HK_NOT_IN_THIS_STATE);
    ask(host, 0x00, SET_ADDRESS, 128, 0, 0, HK_FIELD_WRONG);
    ask(host, 0xC0, 1, 0, 0, 4, HK_REQUEST_UNKNOWN);
}

/* A host that has seen enough goes on to the status stage. */
static void end_data_stage_early(struct host *host, const uint8_t *setup) {
    hk_part packet = HK_NO_PART;
    print_setup(setup);
    wire_send_setup(host->address, setup);
    if (wire_take_packet(host->address, &packet) != WIRE_DONE)
        fail(host, "no packet came");
    printf("\n  -> a packet of %u\n", (unsigned)packet.length);
    end_transfer_with_status(host, setup, HK_DONE);
}

static void leave_set_address_open(struct host *host) {
    uint8_t setup[HK_SETUP_LENGTH];
    fill_setup(setup, 0x00, SET_ADDRESS, INTERRUPTED_ADDRESS, 0, 0);
    print_setup(setup);
    printf(", no status stage\n");
    if (begin_transfer(host, setup) != HK_DONE)
        fail(host, "the address was refused");
    show_record(host, "");
}

static void interrupt_set_address(struct host *host) {
    heading("A request between SET_ADDRESS and its status stage, or a bus reset: the address is dropped");
    leave_set_address_open(host);
    get_descriptor(host, TYPE_DEVICE, 0, 0, 18, HK_DONE);
    leave_set_address_open(host);
    get_descriptor(host, TYPE_DEVICE_QUALIFIER, 0, 0, 10, HK_DOES_NOT_EXIST);
    leave_set_address_open(host);
    ask(host, 0xA1, GET_LINE_CODING, 0, 2, 7, HK_REQUEST_UNKNOWN);
    leave_set_address_open(host);
    reset_bus(host);
}

/* In the two stages in which the host's OUT packet is the status stage, a second one is stray. */
static void send_stray_outs(struct host *host) {
    uint8_t setup[HK_SETUP_LENGTH];
    heading("Stray OUT packets, in every stage: none ends a transfer or takes a waiting address");
    send_stray_out(host, "before any transfer");
    leave_set_address_open(host);
    send_stray_out(host, "before our status stage");
    reset_bus(host);
    get_descriptor(host, TYPE_DEVICE, 0, 0, 18, HK_DONE);
    send_stray_out(host, "after the host's status stage");
    fill_setup(setup, 0x80, GET_DESCRIPTOR, TYPE_DEVICE << 8, 0, 18);
    end_data_stage_early(host, setup);
    send_stray_out(host, "after the host has ended the data stage early");
    get_descriptor(host, TYPE_DEVICE_QUALIFIER, 0, 0, 10, HK_DOES_NOT_EXIST);
    send_stray_out(host, "after a STALL");
}

static void set_address(struct host *host) {
    heading("The address, taken when the status stage has ended");
    ask(host, 0x00, SET_ADDRESS, ADDRESS, 0, 0, HK_DONE);
    host->address = ADDRESS;
    get_descriptor(host, TYPE_DEVICE, 0, 0, 18, HK_DONE);
}

static void read_device(struct host *host, struct learnt *learnt) {
    learnt->configurations = host->bytes[17];
    for (int at = 14; at < 17; at++)
        learnt->refers[host->bytes[at]] = 1;
    heading("Only full speed: there is no device_qualifier");
    get_descriptor(host, TYPE_DEVICE_QUALIFIER, 0, 0, 10, HK_DOES_NOT_EXIST);
}

static void read_configuration(struct host *host, struct learnt *learnt, unsigned index) {
    struct body *body = &learnt->bodies[index];
    get_descriptor(host, TYPE_CONFIGURATION, index, 0, 9, HK_DONE);
    get_descriptor(host, TYPE_CONFIGURATION, index, 0, two_bytes(host->bytes + 2), HK_DONE);
    body->length = host->length < MOST_BODY ? host->length : MOST_BODY;
    memcpy(body->bytes, host->bytes, body->length);
    learnt->refers[body->bytes[6]] = 1;
    learnt->wakeup |= body->bytes[7] >> 5 & 1;
    learnt->own_supply |= body->bytes[7] >> 6 & 1;
    for (size_t at = 0; at < body->length; at = next_descriptor(body->bytes, body->length, at))
        if (body->bytes[at + 1] == TYPE_INTERFACE)
            learnt->refers[body->bytes[at + 8]] = 1;
}

static void read_configurations(struct host *host, struct learnt *learnt) {
    heading("Configurations: 9 bytes tell wTotalLength; asked for more, a device gives what there is");
    for (unsigned index = 0; index < learnt->configurations; index++)
        read_configuration(host, learnt, index);
    get_descriptor(host, TYPE_CONFIGURATION, 0, 0, 512, HK_DONE);
    get_descriptor(host, TYPE_CONFIGURATION, learnt->configurations, 0, 9, HK_DOES_NOT_EXIST);
}

static void read_one_packet(struct host *host, const struct body *body) {
    uint8_t setup[HK_SETUP_LENGTH];
    heading("The host ends the data stage after one packet");
    fill_setup(setup, 0x80, GET_DESCRIPTOR, TYPE_CONFIGURATION << 8, 0, (unsigned)body->length);
    end_data_stage_early(host, setup);
}

static int is_listed(const struct learnt *learnt, unsigned language) {
    for (unsigned at = 0; at < learnt->language_count; at++)
        if (learnt->languages[at] == language)
            return 1;
    return 0;
}

static void read_languages(struct host *host, struct learnt *learnt) {
    uint8_t setup[HK_SETUP_LENGTH];
    fill_setup(setup, 0x80, GET_DESCRIPTOR, TYPE_STRING << 8, 0, 255);
    uint8_t number = request(host, setup);
    if (number != HK_DONE && number != HK_DOES_NOT_EXIST)
        fail(host, "string 0 is neither given nor missing");
    for (size_t at = 2; at + 1 < host->length; at += 2)
        learnt->languages[learnt->language_count++] = two_bytes(host->bytes + at);
}

/* In each language, and in one that is not listed: then it is given in the first. */
static void read_string(struct host *host, const struct learnt *learnt, unsigned index, unsigned unlisted) {
    uint8_t first[255];
    size_t length = 0;
    for (unsigned at = 0; at < learnt->language_count; at++) {
        get_descriptor(host, TYPE_STRING, index, learnt->languages[at], sizeof first, HK_DONE);
        if (at == 0)
            memcpy(first, host->bytes, length = host->length);
    }
    get_descriptor(host, TYPE_STRING, index, unlisted, sizeof first, length == 0 ? HK_DOES_NOT_EXIST : HK_DONE);
    if (length != 0 && (host->length != length || memcmp(first, host->bytes, length) != 0))
        fail(host, "it is not the string in the first language");
}

static void read_strings(struct host *host, struct learnt *learnt) {
    heading("Strings: string 0 lists the languages, then each string in each of them");
    read_languages(host, learnt);
    unsigned unlisted = 0x0409;
    while (is_listed(learnt, unlisted))
        unlisted++;
    for (unsigned index = 1; index < 256; index++)
        if (learnt->refers[index])
            read_string(host, learnt, index, unlisted);
}

static void change_wakeup(struct host *host, const struct learnt *learnt, enum request request) {
    uint8_t expected = learnt->wakeup ? HK_DONE : HK_NO_SUCH_FEATURE;
    ask(host, 0x00, (uint8_t)request, DEVICE_REMOTE_WAKEUP, 0, 0, expected);
}

static void use_wakeup(struct host *host, const struct learnt *learnt) {
    heading(learnt->wakeup ? "Remote wakeup, on and off" : "No configuration has remote wakeup");
    change_wakeup(host, learnt, SET_FEATURE);
    ask(host, 0x80, GET_STATUS, 0, 0, 2, HK_DONE);
    change_wakeup(host, learnt, CLEAR_FEATURE);
}

static void press_key(struct host *host, uint8_t expected) {
    uint8_t number = device_wake(&host->device);
    printf("a key is pressed: %s\n", number == HK_DONE ? "the device may wake the host, and signals" : number_in_words(number));
    if (number != expected || wire_wakeup_signalled() != (expected == HK_DONE))
        fail(host, "it wakes the host otherwise than allowed");
    show_record(host, "");
}

static void suspend_bus(struct host *host) {
    printf("the bus falls silent\n");
    wire_suspend();
    show_record(host, "");
}

static void resume_bus(struct host *host) {
    printf("the host resumes the bus\n");
    wire_resume();
    show_record(host, "");
}

/* Once without wakeup, and once with it where the device supports it. */
static void use_sleep(struct host *host, const struct learnt *learnt) {
    heading("The device sleeps: it may wake the host only where the host allows it");
    press_key(host, HK_WAKE_NOT_ALLOWED);
    suspend_bus(host);
    press_key(host, HK_WAKE_NOT_ALLOWED);
    resume_bus(host);
    change_wakeup(host, learnt, SET_FEATURE);
    suspend_bus(host);
    press_key(host, learnt->wakeup ? HK_DONE : HK_WAKE_NOT_ALLOWED);
    resume_bus(host);
    change_wakeup(host, learnt, CLEAR_FEATURE);
    suspend_bus(host);
    get_descriptor(host, TYPE_DEVICE, 0, 0, 18, HK_DONE); /* a setup is proof that the bus is awake */
}

static void change_power(struct host *host, uint8_t source) {
    printf("the device draws from %s\n", source == HK_POWER_OWN ? "its own supply" : "the bus");
    wire_change_power(source);
    show_record(host, "");
    ask(host, 0x80, GET_STATUS, 0, 0, 2, HK_DONE);
    if (host->bytes[0] % 2 != source)
        fail(host, "D0 is not the supply");
}

/* From here on the device keeps its own supply. */
static void use_power(struct host *host, const struct learnt *learnt) {
    if (!learnt->own_supply)
        return;
    heading("The supply changes: D0 of the device's status tells it");
    change_power(host, HK_POWER_OWN);
    change_power(host, HK_POWER_BUS);
    change_power(host, HK_POWER_OWN);
}

/* SET_CONFIGURATION takes a value, not an index: some value is never there, since there are at most 8. */
static void configure(struct host *host, const struct learnt *learnt, const struct body *body) {
    uint8_t values[256] = {0};
    unsigned missing = 1;
    for (unsigned index = 0; index < learnt->configurations; index++)
        values[learnt->bodies[index].bytes[5]] = 1;
    while (values[missing])
        missing++;
    heading("A configuration is selected by its value");
    ask(host, 0x00, SET_CONFIGURATION, missing, 0, 0, HK_DOES_NOT_EXIST);
    ask(host, 0x00, SET_CONFIGURATION, body->bytes[5], 0, 0, HK_DONE);
    ask(host, 0x80, GET_CONFIGURATION, 0, 0, 1, HK_DONE);
    ask(host, 0x80, GET_STATUS, 0, 0, 2, HK_DONE);
}

/* The communication interface of a serial port, by its class and subclass; 0 if there is none. */
static const uint8_t *serial_interface(const struct body *body) {
    for (size_t at = 0; at < body->length; at = next_descriptor(body->bytes, body->length, at))
        if (body->bytes[at + 1] == TYPE_INTERFACE && body->bytes[at + 5] == 2 && body->bytes[at + 6] == 2)
            return body->bytes + at;
    return NULL;
}

/* A SETUP amid the host's bytes ends that transfer, and what was given so far is forgotten. */
static void leave_bytes_open(struct host *host, const uint8_t *setup) {
    print_setup(setup);
    printf(", no bytes\n");
    if (begin_giving(host, setup, NULL, 0) != HK_DONE)
        fail(host, "it was refused");
}

/* Bytes of several packets, there and back; the last one full, short, or one too many. */
static void use_own_request(struct host *host) {
    static const unsigned lengths[] = {1, 64, 100, 200, 201};
    uint8_t setup[HK_SETUP_LENGTH], bytes[201];
    heading("A request of the board's own, with bytes of the host's");
    for (unsigned at = 0; at < sizeof bytes; at++)
        bytes[at] = (uint8_t)(at + 1);
    for (size_t at = 0; at < sizeof lengths / sizeof *lengths; at++) {
        fill_setup(setup, 0x40, WIRE_KEEP, 0, 0, lengths[at]);
        give(host, setup, bytes, lengths[at] > WIRE_MOST_KEPT ? HK_REQUEST_UNKNOWN : HK_DONE);
        ask(host, 0xC0, WIRE_KEEP, 0, 0, 255, HK_DONE);
    }
    ask(host, 0xC0, WIRE_KEEP, 0, 0, 10, HK_DONE);
    ask(host, 0xC0, WIRE_KEEP, 0, 0, 0, HK_DONE);
}

static void use_serial_port(struct host *host, uint8_t interface) {
    static const uint8_t slow[] = {0x80, 0x25, 0, 0, 2, 2, 7}, wrong[] = {0x80, 0x25, 0, 0, 9, 2, 7};
    uint8_t setup[HK_SETUP_LENGTH];
    heading("The serial port's own requests: the application answers what the library does not know");
    ask(host, 0xA1, GET_LINE_CODING, 0, interface, 7, HK_DONE);
    fill_setup(setup, 0x21, SET_LINE_CODING, 0, interface, 7);
    give(host, setup, slow, HK_DONE);
    ask(host, 0xA1, GET_LINE_CODING, 0, interface, 64, HK_DONE);
    give(host, setup, wrong, HK_REQUEST_UNKNOWN);
    leave_bytes_open(host, setup);
    send_stray_out(host, "before the bytes");
    ask(host, 0xA1, GET_LINE_CODING, 0, interface, 4, HK_DONE);
    ask(host, 0x21, SET_CONTROL_LINE_STATE, 3, interface, 0, HK_DONE);
    ask(host, 0xA1, GET_LINE_CODING, 0, interface + 1u, 7, HK_REQUEST_UNKNOWN);
    fill_setup(setup, 0x21, SET_LINE_CODING, 0, interface, 6);
    give(host, setup, slow, HK_REQUEST_UNKNOWN);
    ask(host, 0xA1, SET_CONTROL_LINE_STATE, 0, interface, 2, HK_REQUEST_UNKNOWN);
}

static void halt_from_inside(struct host *host, uint8_t endpoint) {
    printf("the application halts endpoint %02X\n", endpoint);
    if (device_halt(&host->device, endpoint) != HK_DONE)
        fail(host, "it was refused");
    show_record(host, "");
}

static int has_endpoint(const struct body *body, uint8_t endpoint) {
    for (size_t at = 0; at < body->length; at = next_descriptor(body->bytes, body->length, at))
        if (body->bytes[at + 1] == TYPE_ENDPOINT && body->bytes[at + 2] == endpoint)
            return 1;
    return 0;
}

/* An isochronous endpoint has neither halt nor toggle. */
static void use_isochronous(struct host *host, uint8_t endpoint) {
    ask(host, 0x02, SET_FEATURE, ENDPOINT_HALT, endpoint, 0, HK_NO_SUCH_FEATURE);
    ask(host, 0x82, GET_STATUS, 0, endpoint, 2, HK_DONE);
}

/* A halt from each side, and what passes before and after. */
static void use_halt(struct host *host, uint8_t endpoint) {
    pass_packet(host, endpoint);
    /* clears the toggle, though nothing is halted */
    ask(host, 0x02, CLEAR_FEATURE, ENDPOINT_HALT, endpoint, 0, HK_DONE);
    pass_packet(host, endpoint);
    ask(host, 0x02, SET_FEATURE, ENDPOINT_HALT, endpoint, 0, HK_DONE);
    ask(host, 0x82, GET_STATUS, 0, endpoint, 2, HK_DONE);
    if (pass_packet(host, endpoint))
        fail(host, "a packet passed on a halted endpoint");
    ask(host, 0x02, CLEAR_FEATURE, ENDPOINT_HALT, endpoint, 0, HK_DONE);
    pass_packet(host, endpoint);
    halt_from_inside(host, endpoint);
}

static void use_endpoint(struct host *host, const struct body *body, const uint8_t *descriptor) {
    uint8_t endpoint = descriptor[2], opposite = endpoint ^ 0x80;
    if ((descriptor[3] & 3) == 1)
        use_isochronous(host, endpoint);
    else
        use_halt(host, endpoint);
    if (!has_endpoint(body, opposite))
        ask(host, 0x02, SET_FEATURE, ENDPOINT_HALT, opposite, 0, HK_DOES_NOT_EXIST);
}

static void take_setting(struct host *host, unsigned interface, unsigned alternate) {
    printf("\n# Interface %u takes alternate %u, and its endpoints are used\n", interface, alternate);
    ask(host, 0x01, SET_INTERFACE, alternate, interface, 0, HK_DONE);
    ask(host, 0x81, GET_INTERFACE, 0, interface, 1, HK_DONE);
    ask(host, 0x81, GET_STATUS, 0, interface, 2, HK_DONE);
}

static void take_settings(struct host *host, const struct body *body) {
    for (size_t at = 0; at < body->length; at = next_descriptor(body->bytes, body->length, at)) {
        const uint8_t *descriptor = body->bytes + at;
        if (descriptor[1] == TYPE_INTERFACE)
            take_setting(host, descriptor[2], descriptor[3]);
        if (descriptor[1] == TYPE_ENDPOINT)
            use_endpoint(host, body, descriptor);
    }
}

/* Each interface is at its last alternate now, and its endpoints are halted. */
static void take_same_settings(struct host *host, const struct body *body) {
    heading("The same settings again: halts and toggles become 0");
    for (unsigned interface = 0; interface < body->bytes[4]; interface++)
        ask(host, 0x01, SET_INTERFACE, host->device.record.alternates[interface], interface, 0, HK_DONE);
    ask(host, 0x81, GET_INTERFACE, 0, body->bytes[4], 1, HK_DOES_NOT_EXIST);
}

static void use_configuration(struct host *host, const struct learnt *learnt, const struct body *body) {
    const uint8_t *serial = serial_interface(body);
    configure(host, learnt, body);
    if (serial != NULL)
        use_serial_port(host, serial[2]);
    take_settings(host, body);
    take_same_settings(host, body);
    if (body->bytes[4] < 2)
        return;
    heading("Two drivers, interfaces 0 and 1: their events in two orders");
    exchange_drivers(host, body->bytes, body->length);
}

static void leave(struct host *host, const struct learnt *learnt) {
    heading("Configuration 0 leads back to Address, a bus reset to Default; only the reset ends remote wakeup");
    change_wakeup(host, learnt, SET_FEATURE);
    ask(host, 0x00, SET_CONFIGURATION, 0, 0, 0, HK_DONE);
    reset_bus(host);
    heading("A bus reset in Configured closes every endpoint");
    ask(host, 0x00, SET_ADDRESS, ADDRESS, 0, 0, HK_DONE);
    host->address = ADDRESS;
    ask(host, 0x00, SET_CONFIGURATION, learnt->bodies[0].bytes[5], 0, 0, HK_DONE);
    reset_bus(host);
}

static void lose_last_byte_of_set(struct host *host) {
    const hk_board *board = host->device.board;
    hk_board worn = *board;
    worn.set_length--;
    printf("the set has lost its last byte\n");
    host->device.board = &worn;
    get_descriptor(host, TYPE_DEVICE, 0, 0, 18, HK_SET_NOT_ACCEPTABLE);
    host->device.board = board;
}

static void disturb_record(struct host *host) {
    printf("byte 1 of the record becomes 200, until a bus reset mends it\n");
    host->device.record.address = 200;
    show_record(host, "");
    get_descriptor(host, TYPE_DEVICE, 0, 0, 18, HK_RECORD_DOES_NOT_FIT);
    reset_bus(host);
}

static void disturb_board(struct host *host) {
    heading("Faults of the board: STALL, and its application hears the number");
    printf("the peripheral hands over 7 bytes of a SETUP\n");
    wire_hand_over(7);
    get_descriptor(host, TYPE_DEVICE, 0, 0, 18, HK_SETUP_LENGTH_WRONG);
    wire_hand_over(HK_SETUP_LENGTH);
    pass_packet(host, 0x81); /* in Default there is no such endpoint */
    printf("the application halts endpoint 81\n");
    if (device_halt(&host->device, 0x81) != HK_ENDPOINT_UNFIT)
        fail(host, "it was not refused");
    show_fault(wire_heard());
    lose_last_byte_of_set(host);
    disturb_record(host);
    get_descriptor(host, TYPE_DEVICE, 0, 0, 18, HK_DONE);
}

/* The bench's application has a serial port where the set has one: the communication interface's first bytes tell. */
static int find_port(const hk_board *board, struct serial_port *port) {
    static const uint8_t head[] = {9, 4}, serial_class[] = {2, 2};
    for (size_t at = 0; at + 9 <= board->set_length; at++)
        if (memcmp(board->set + at, head, 2) == 0 && memcmp(board->set + at + 5, serial_class, 2) == 0) {
            serial_start(port, board->set[at + 2]);
            return 1;
        }
    return 0;
}

static int enumerate(const hk_board *board) {
    static struct host host;
    static struct learnt learnt;
    static struct serial_port port;
    memset(&host.device, UNWRITTEN, sizeof host.device); /* memory at power-on */
    wire_attach(&host.device, find_port(board, &port) ? &port : NULL);
    uint8_t number = device_start(&host.device, board);
    if (number != HK_DONE) {
        print_refusal(number);
        return 1;
    }
    printf("power on, the set is accepted\n");
    check_transfer_ended(&host);
    show_record(&host, "");
    learn_packet_size(&host);
    err_in_default(&host);
    interrupt_set_address(&host);
    send_stray_outs(&host);
    set_address(&host);
    use_own_request(&host);
    get_descriptor(&host, TYPE_DEVICE, 0, 0, 18, HK_DONE);
    read_device(&host, &learnt);
    read_configurations(&host, &learnt);
    read_one_packet(&host, &learnt.bodies[0]);
    read_strings(&host, &learnt);
    use_wakeup(&host, &learnt);
    use_sleep(&host, &learnt);
    use_power(&host, &learnt);
    for (unsigned index = 0; index < learnt.configurations; index++)
        use_configuration(&host, &learnt, &learnt.bodies[index]);
    leave(&host, &learnt);
    disturb_board(&host);
    printf("\nend of the transcript: %d failed\n", host.failures);
    return host.failures != 0;
}

/* A file that cannot be opened counts as empty, as the lister has it; what is too long stays too long. */
static size_t read_file(const char *name, uint8_t *bytes) {
    FILE *file = fopen(name, "rb");
    if (file == NULL)
        return 0;
    size_t length = fread(bytes, 1, MOST_FILE, file);
    fclose(file);
    return length;
}

static int write_file(const char *name, const uint8_t *bytes, size_t length) {
    FILE *file = fopen(name, "wb");
    if (file == NULL)
        return 0;
    size_t written = length == 0 ? 0 : fwrite(bytes, 1, length, file);
    return fclose(file) == 0 && written == length;
}

static const hk_board *built_in(const char *name) {
    return strcmp(name, "bench") == 0 ? &bench_board : strcmp(name, "titrator") == 0 ? &titrator_board : NULL;
}

int main(int count, char **arguments) {
    static uint8_t set[MOST_FILE], serial[MOST_FILE];
    if (count == 5 && strcmp(arguments[1], "--write") == 0 && built_in(arguments[2]) != NULL) {
        const hk_board *board = built_in(arguments[2]);
        return !(write_file(arguments[3], board->set, board->set_length) &&
                 write_file(arguments[4], board->serial, board->serial_length));
    }
    if (count == 2 && built_in(arguments[1]) != NULL)
        return enumerate(built_in(arguments[1]));
    if (count != 2 && count != 3) {
        fprintf(stderr, "usage: host bench | titrator | SET [SERIAL]\n");
        return 2;
    }
    hk_board board = {set, read_file(arguments[1], set), serial, 0, NULL, 0};
    board.serial_length = count == 3 ? read_file(arguments[2], serial) : 0;
    return enumerate(&board);
}
