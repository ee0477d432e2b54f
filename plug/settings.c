#include "settings.h"

#include "../tools/host/words.h"

#define ENTRIES 4
#define ENTRY_LENGTH 8
#define MICROFRAME 125
#define FRAME 1000

static const struct device *looked_at;

void settings_of(const struct device *device) {
    looked_at = device;
}

static int is_high_speed(void) {
    return device_record(looked_at)->speed != HK_SPEED_FULL;
}

const uint8_t *current_set(void) {
    return is_high_speed() ? looked_at->board->high : looked_at->board->set;
}

/* The device descriptor's entry comes first. */
const uint8_t *current_device_descriptor(void) {
    const uint8_t *set = current_set();
    return set + two_bytes(set + ENTRIES + 4);
}

static hk_part current_configuration(void) {
    const uint8_t *set = current_set();
    hk_part body = HK_NO_PART;
    for (unsigned number = 0; number < set[2]; number++) {
        const uint8_t *entry = set + ENTRIES + ENTRY_LENGTH * number, *start = set + two_bytes(entry + 4);
        if (entry[0] == TYPE_CONFIGURATION && start[5] == device_record(looked_at)->configuration) {
            body.start = start;
            body.length = two_bytes(entry + 6);
        }
    }
    return body;
}

const uint8_t *current_interface(unsigned number) {
    hk_part body = current_configuration();
    for (size_t at = 0; at < body.length && number < 16; at = next_descriptor(body.start, body.length, at)) {
        const uint8_t *descriptor = body.start + at;
        if (descriptor[1] == TYPE_INTERFACE && descriptor[2] == number &&
            descriptor[3] == device_record(looked_at)->alternates[number])
            return descriptor;
    }
    return NULL;
}

const uint8_t *open_endpoint(uint8_t address) {
    const uint8_t *open[WIRE_MOST_ENDPOINTS];
    size_t count = wire_open_endpoints(open);
    for (size_t at = 0; at < count; at++)
        if (open[at][2] == address)
            return open[at];
    return NULL;
}

/* The last interface descriptor before it. */
const uint8_t *interface_of(const uint8_t *endpoint) {
    hk_part body = current_configuration();
    const uint8_t *interface = NULL;
    for (size_t at = 0; at < body.length && body.start + at < endpoint; at = next_descriptor(body.start, body.length, at))
        if (body.start[at + 1] == TYPE_INTERFACE)
            interface = body.start + at;
    return interface;
}

static int is_alike(const uint8_t *one, const uint8_t *other) {
    return endpoint_type(one) == endpoint_type(other) && interface_of(one) == interface_of(other);
}

/* How many of its interface, type and direction were opened before it. */
static size_t rank_of(const uint8_t *endpoint) {
    const uint8_t *open[WIRE_MOST_ENDPOINTS];
    size_t count = wire_open_endpoints(open), rank = 0;
    for (size_t at = 0; at < count && open[at] != endpoint; at++)
        rank += is_alike(open[at], endpoint) && ((open[at][2] ^ endpoint[2]) & ENDPOINT_IN) == 0;
    return rank;
}

const uint8_t *partner_of(const uint8_t *endpoint) {
    const uint8_t *open[WIRE_MOST_ENDPOINTS];
    size_t count = wire_open_endpoints(open), rank = rank_of(endpoint);
    for (size_t at = 0; at < count; at++)
        if (is_alike(open[at], endpoint) && (open[at][2] ^ endpoint[2]) & ENDPOINT_IN && rank_of(open[at]) == rank)
            return open[at];
    return NULL;
}

unsigned endpoint_bit(const uint8_t *endpoint) {
    return (endpoint[2] & 15u) + (endpoint[2] & ENDPOINT_IN ? 16 : 0);
}

unsigned endpoint_type(const uint8_t *endpoint) {
    return endpoint[3] & 3;
}

/* Bits 10 to 0; the two above count more packets in a microframe, which a high-speed isochronous endpoint may have. */
size_t endpoint_packet(const uint8_t *endpoint) {
    unsigned field = two_bytes(endpoint + 4);
    return (field & 0x7FF) * (endpoint_type(endpoint) == TRANSFER_ISOCHRONOUS ? 1 + (field >> 11 & 3) : 1);
}

/* Frames at full speed, where only isochronous endpoints count by powers of two; at high speed microframes, by powers. */
uint64_t endpoint_period(const uint8_t *endpoint) {
    uint64_t power = (uint64_t)1 << ((endpoint[6] - 1) & 15);
    if (is_high_speed())
        return power * MICROFRAME;
    return FRAME * (endpoint_type(endpoint) == TRANSFER_ISOCHRONOUS ? power : endpoint[6]);
}

int is_halted_now(const uint8_t *endpoint) {
    return device_record(looked_at)->halts >> endpoint_bit(endpoint) & 1;
}
