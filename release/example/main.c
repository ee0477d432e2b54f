/* The device loop of the release on a board whose USB peripheral is played by a list of SETUP packets: what a host sends when the device is plugged in. A board of
 * yours has a peripheral in its place: it fills in the functions of hardware.h, and keeps the rest of main as it is. */
#include "device.h"
#include "hardware.h"
#include "sets.h"
#include "start.h"

static struct device device;

/* ---- The peripheral, played. */
static const uint8_t setups[][HK_SETUP_LENGTH] = {
    {0x80, 0x06, 0x00, 0x01, 0x00, 0x00, 0x40, 0x00}, /* GET_DESCRIPTOR, the device */
    {0x00, 0x05, 0x05, 0x00, 0x00, 0x00, 0x00, 0x00}, /* SET_ADDRESS 5 */
    {0x80, 0x06, 0x00, 0x02, 0x00, 0x00, 0xFF, 0x00}, /* GET_DESCRIPTOR, the configuration */
    {0x80, 0x06, 0x00, 0x06, 0x00, 0x00, 0x0A, 0x00}, /* GET_DESCRIPTOR, a device_qualifier that is not there */
    {0x00, 0x09, 0x01, 0x00, 0x00, 0x00, 0x00, 0x00}, /* SET_CONFIGURATION 1 */
};
static size_t next_setup;
static int is_reset, is_sending, is_receiving;

static void say_byte(uint8_t byte) {
    static const char digits[] = "0123456789ABCDEF";
    const char word[] = {' ', digits[byte >> 4], digits[byte & 15], 0};
    board_say(word);
}

static void say_bytes(const char *what, const uint8_t *bytes, size_t length) {
    board_say(what);
    for (size_t at = 0; at < length; at++)
        say_byte(bytes[at]);
    board_say("\n");
}

/* A host: a reset, then one control transfer after the other; it takes what is sent and ends with its empty packet. */
int hardware_wait(struct hardware_event *event) {
    const struct hardware_event none = {0};
    *event = none;
    if (!is_reset) {
        is_reset = 1;
        event->kind = HARDWARE_BUS_RESET;
    } else if (is_sending) {
        is_sending = 0;
        event->kind = HARDWARE_PACKET_TAKEN;
    } else if (is_receiving) {
        is_receiving = 0;
        event->kind = HARDWARE_STATUS_RECEIVED;
    } else if (next_setup < sizeof setups / sizeof *setups) {
        event->kind = HARDWARE_SETUP;
        event->setup_length = HK_SETUP_LENGTH;
        for (size_t at = 0; at < HK_SETUP_LENGTH; at++)
            event->setup[at] = setups[next_setup][at];
        say_bytes("SETUP", setups[next_setup++], HK_SETUP_LENGTH);
    } else {
        return 0;
    }
    return 1;
}

void hardware_send_packet(const uint8_t *bytes, size_t length) {
    say_bytes("  IN", bytes, length);
    is_sending = 1;
}

void hardware_receive_status(void) {
    is_receiving = 1;
}

void hardware_stall_endpoint_zero(void) {
    board_say("  STALL\n");
}

void hardware_set_address(uint8_t address) {
    (void)address;
}

void hardware_open_endpoint(const uint8_t *descriptor) {
    say_bytes("  opens endpoint", descriptor + 2, 1);
}

void hardware_receive_packet(uint8_t *room, size_t length) {
    (void)room;
    (void)length;
}

void hardware_close_endpoints(void) {}

void hardware_set_endpoints(const hk_record *record) {
    (void)record;
}

uint8_t hardware_power_source(void) {
    return HK_POWER_BUS;
}

void hardware_signal_wakeup(void) {}

/* ---- The application: no requests of its own. */
void application_hear(uint8_t number) {
    (void)number;
}

uint8_t application_setup(const uint8_t *setup, struct application_data *data) {
    (void)setup;
    (void)data;
    return HK_PIPE_REFUSE;
}

uint8_t application_take(const uint8_t *setup, const uint8_t *bytes, size_t length) {
    (void)setup;
    (void)bytes;
    (void)length;
    return HK_PIPE_REFUSE;
}

int main(void) {
    if (hk_version() != 0x10000u * HK_VERSION_MAJOR + 0x100u * HK_VERSION_MINOR + HK_VERSION_PATCH)
        return 1;
    if (device_start(&device, &bench_board) != HK_DONE)
        return 2;
    device_run(&device);
    const hk_record *record = device_record(&device);
    board_say("heideklonk " HK_VERSION ": ");
    board_say(record->state == 2 && record->address == 5 && record->configuration == 1 ? "enumerated\n" : "NOT enumerated\n");
    return record->state == 2 ? 0 : 3;
}
