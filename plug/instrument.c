#include "instrument.h"

#include <stdio.h>
#include <string.h>

#include "../firmware/serial.h"
#include "../tools/host/words.h"

#define MOST_INTERFACES 16
#define MOST_WAITING 65536
#define MOST_LINE 200
#define SUBCLASS_SERIAL_PORT 2
#define RECIPIENT_INTERFACE 1

/* Linux's Gadget Zero, and what usbtest asks of it by control transfers: bytes to keep, and the same bytes back. */
#define GADGET_ZERO_VENDOR 0x0525
#define GADGET_ZERO_PRODUCT 0xA4A0
#define REQUEST_KEEP 0x405B
#define REQUEST_GIVE_BACK 0xC05C

/* What goes from an OUT endpoint to its partner, by the OUT endpoint's number. */
static struct channel {
    const uint8_t *endpoint; /* the OUT endpoint's descriptor, while it is open */
    uint8_t waiting[MOST_WAITING];
    size_t start, count;
    char line[MOST_LINE]; /* what a serial port has heard of a line */
    size_t line_length;
} channels[16];

static struct serial_port ports[MOST_INTERFACES];
static uint8_t kept[65536];

void instrument_start(void) {
    memset(channels, 0, sizeof channels);
    memset(kept, 0, sizeof kept);
    for (uint8_t number = 0; number < MOST_INTERFACES; number++)
        serial_start(&ports[number], number);
}

static int is_gadget_zero(void) {
    const uint8_t *device = current_device_descriptor();
    return two_bytes(device + 8) == GADGET_ZERO_VENDOR && two_bytes(device + 10) == GADGET_ZERO_PRODUCT;
}

/* ---- What waits. */

static void put(struct channel *channel, const void *bytes, size_t length) {
    for (size_t at = 0; at < length; at++)
        channel->waiting[(channel->start + channel->count++) % MOST_WAITING] = ((const uint8_t *)bytes)[at];
}

static void take(struct channel *channel, uint8_t *bytes, size_t length) {
    for (size_t at = 0; at < length; at++)
        bytes[at] = channel->waiting[(channel->start + at) % MOST_WAITING];
    channel->start = (channel->start + length) % MOST_WAITING;
    channel->count -= length;
}

/* ---- A serial port. It says what it heard, once: a terminal that sends back what it is sent must not start a conversation
 * without end. So its own words are not answered, nor are empty lines. */

static const char own_word[] = "heard: ", line_end[] = "\r\n";
#define OWN_WORD_LENGTH (sizeof own_word - 1)
#define LINE_END_LENGTH (sizeof line_end - 1)

static void print_heard(const struct channel *channel) {
    printf("serial port, endpoint %02X, hears \"", channel->endpoint[2]);
    for (size_t at = 0; at < channel->line_length; at++)
        putchar(channel->line[at] >= 0x20 && channel->line[at] < 0x7F ? channel->line[at] : '?');
    printf("\"\n");
}

/* A reply that finds no room is dropped, as a port does that nobody reads. */
static void answer_line(struct channel *channel) {
    size_t length = OWN_WORD_LENGTH + channel->line_length + LINE_END_LENGTH;
    int is_own = channel->line_length >= OWN_WORD_LENGTH && memcmp(channel->line, own_word, OWN_WORD_LENGTH) == 0;
    if (channel->line_length == 0 || is_own)
        return;
    print_heard(channel);
    if (channel->count + length > MOST_WAITING)
        return;
    put(channel, own_word, OWN_WORD_LENGTH);
    put(channel, channel->line, channel->line_length);
    put(channel, line_end, LINE_END_LENGTH);
}

static void hear(struct channel *channel, const uint8_t *bytes, size_t length) {
    for (size_t at = 0; at < length; at++) {
        if (bytes[at] == '\r' || bytes[at] == '\n') {
            answer_line(channel);
            channel->line_length = 0;
        } else if (channel->line_length < MOST_LINE) {
            channel->line[channel->line_length++] = (char)bytes[at];
        }
    }
}

/* ---- What an endpoint is for, found once for each setting. */

enum use { LOOP_BACK, SERIAL_DATA, SILENT, SOURCE_AND_SINK };

static struct role {
    const uint8_t *endpoint; /* its descriptor, NULL while it is not open */
    enum use use;
    struct channel *channel; /* that of the OUT endpoint, of two partners */
} roles[32]; /* by the endpoints' bits in a record */

static enum use use_among(const uint8_t *endpoint, const uint8_t *partner) {
    unsigned class = interface_of(endpoint)[5];
    if (endpoint_type(endpoint) == TRANSFER_ISOCHRONOUS || is_gadget_zero())
        return SOURCE_AND_SINK;
    if (class == CLASS_SERIAL_DATA)
        return partner != NULL ? SERIAL_DATA : SILENT;
    if (class == CLASS_COMMUNICATION)
        return SILENT;
    return class == CLASS_VENDOR && partner != NULL ? LOOP_BACK : SOURCE_AND_SINK;
}

static struct role role_for(const uint8_t *endpoint) {
    const uint8_t *partner = partner_of(endpoint);
    const uint8_t *out = endpoint[2] & ENDPOINT_IN ? partner : endpoint;
    struct role role = {endpoint, use_among(endpoint, partner), out == NULL ? NULL : &channels[out[2] & 15]};
    return role;
}

/* A channel whose OUT endpoint is another than before starts empty. */
static void follow_channels(void) {
    for (uint8_t number = 1; number < 16; number++) {
        struct channel *channel = &channels[number];
        const uint8_t *endpoint = open_endpoint(number);
        if (endpoint != channel->endpoint)
            channel->start = channel->count = channel->line_length = 0;
        channel->endpoint = endpoint;
    }
}

void instrument_follow_settings(void) {
    const uint8_t *open[WIRE_MOST_ENDPOINTS];
    size_t count = wire_open_endpoints(open);
    memset(roles, 0, sizeof roles);
    for (size_t at = 0; at < count; at++)
        roles[endpoint_bit(open[at])] = role_for(open[at]);
    follow_channels();
}

static const struct role *role_of(const uint8_t *endpoint) {
    return &roles[endpoint_bit(endpoint)];
}

int instrument_is_source(const uint8_t *endpoint) {
    return role_of(endpoint)->use == SOURCE_AND_SINK;
}

int instrument_has_room(const uint8_t *endpoint, size_t length) {
    return role_of(endpoint)->use != LOOP_BACK || role_of(endpoint)->channel->count + length <= MOST_WAITING;
}

void instrument_take(const uint8_t *endpoint, const uint8_t *bytes, size_t length) {
    const struct role *role = role_of(endpoint);
    if (role->use == LOOP_BACK)
        put(role->channel, bytes, length);
    if (role->use == SERIAL_DATA)
        hear(role->channel, bytes, length);
}

/* Where nothing is left, an empty packet ends a transfer that has got some. Zero bytes come as many as there is room for. */
size_t instrument_ready(const uint8_t *endpoint, size_t room, size_t got) {
    size_t most = endpoint_packet(endpoint), count;
    switch (role_of(endpoint)->use) {
    case SILENT:
        return NOTHING_YET;
    case SOURCE_AND_SINK:
        return room < most ? room : most;
    default:
        count = role_of(endpoint)->channel->count;
        return count > most ? most : count > 0 || got > 0 ? count : NOTHING_YET;
    }
}

void instrument_give(const uint8_t *endpoint, uint8_t *bytes, size_t length) {
    if (instrument_is_source(endpoint))
        memset(bytes, 0, length);
    else
        take(role_of(endpoint)->channel, bytes, length);
}

/* ---- Requests of its own (firmware/hardware.h). */

static unsigned type_and_code(const uint8_t *setup) {
    return (unsigned)setup[0] << 8 | setup[1];
}

static uint8_t keep_or_give_back(const uint8_t *setup, struct application_data *data) {
    unsigned request = type_and_code(setup);
    data->reply.start = data->room = kept;
    data->reply.length = data->room_length = sizeof kept;
    if ((request != REQUEST_KEEP && request != REQUEST_GIVE_BACK) || two_bytes(setup + 2) != 0 || two_bytes(setup + 4) != 0)
        return HK_PIPE_REFUSE;
    if (two_bytes(setup + 6) == 0)
        return HK_PIPE_ACCEPT;
    return request == REQUEST_KEEP ? HK_PIPE_ROOM : HK_PIPE_REPLY;
}

static int is_serial_port(const uint8_t *interface) {
    return interface != NULL && interface[5] == CLASS_COMMUNICATION && interface[6] == SUBCLASS_SERIAL_PORT;
}

uint8_t application_setup(const uint8_t *setup, struct application_data *data) {
    uint8_t answer = is_gadget_zero() ? keep_or_give_back(setup, data) : HK_PIPE_REFUSE;
    if (answer != HK_PIPE_REFUSE || (setup[0] & 31) != RECIPIENT_INTERFACE || !is_serial_port(current_interface(setup[4])))
        return answer;
    return serial_setup(&ports[setup[4]], setup, data);
}

uint8_t application_take(const uint8_t *setup, const uint8_t *bytes, size_t length) {
    return type_and_code(setup) == REQUEST_KEEP ? HK_PIPE_ACCEPT : serial_take(&ports[setup[4] & 15], setup, bytes, length);
}
