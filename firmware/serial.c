#include "serial.h"

/* The request type and code, the one above the other. */
#define REQUEST_SET_LINE_CODING 0x2120
#define REQUEST_GET_LINE_CODING 0xA121
#define REQUEST_SET_CONTROL_LINE_STATE 0x2122

static unsigned request_of(const uint8_t *setup) {
    return (unsigned)setup[0] << 8 | setup[1];
}

static int has_fields(const uint8_t *setup, unsigned value, unsigned index) {
    return setup[2] == value && setup[3] == 0 && setup[4] == index && setup[5] == 0;
}

static void store(struct serial_port *port, const uint8_t *line_coding) {
    for (size_t at = 0; at < SERIAL_LINE_CODING_LENGTH; at++)
        port->line_coding[at] = line_coding[at];
}

void serial_start(struct serial_port *port, uint8_t interface) {
    static const uint8_t at_start[SERIAL_LINE_CODING_LENGTH] = {0x00, 0xC2, 0x01, 0x00, 0, 0, 8};
    port->interface = interface;
    port->lines = 0;
    store(port, at_start);
}

uint8_t serial_setup(struct serial_port *port, const uint8_t *setup, struct application_data *data) {
    switch (request_of(setup)) {
    case REQUEST_SET_LINE_CODING:
        data->room = port->room;
        data->room_length = sizeof port->room;
        return has_fields(setup, 0, port->interface) ? HK_PIPE_ROOM : HK_PIPE_REFUSE;
    case REQUEST_GET_LINE_CODING:
        data->reply.start = port->line_coding;
        data->reply.length = sizeof port->line_coding;
        return has_fields(setup, 0, port->interface) ? HK_PIPE_REPLY : HK_PIPE_REFUSE;
    case REQUEST_SET_CONTROL_LINE_STATE:
        if (!has_fields(setup, setup[2] & 3, port->interface) || setup[6] != 0 || setup[7] != 0)
            return HK_PIPE_REFUSE;
        port->lines = setup[2];
        return HK_PIPE_ACCEPT;
    default:
        return HK_PIPE_REFUSE;
    }
}

/* Stop bits 0 to 2 and parity 0 to 4 have a meaning, and so have data bits 5 to 8 and 16. */
static int is_line_coding(const uint8_t *bytes) {
    return bytes[4] <= 2 && bytes[5] <= 4 && ((bytes[6] >= 5 && bytes[6] <= 8) || bytes[6] == 16);
}

uint8_t serial_take(struct serial_port *port, const uint8_t *setup, const uint8_t *bytes, size_t length) {
    if (request_of(setup) != REQUEST_SET_LINE_CODING || length != sizeof port->line_coding || !is_line_coding(bytes))
        return HK_PIPE_REFUSE;
    store(port, bytes);
    return HK_PIPE_ACCEPT;
}
