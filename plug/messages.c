#include "messages.h"

#include <string.h>

uint32_t read_four(const uint8_t *bytes) {
    return (uint32_t)bytes[0] << 24 | (uint32_t)bytes[1] << 16 | (uint32_t)bytes[2] << 8 | bytes[3];
}

uint8_t *write_two(uint8_t *bytes, unsigned number) {
    bytes[0] = (uint8_t)(number >> 8);
    bytes[1] = (uint8_t)number;
    return bytes + 2;
}

uint8_t *write_four(uint8_t *bytes, uint32_t number) {
    return write_two(write_two(bytes, number >> 16), number & 0xFFFF);
}

struct command read_command(const uint8_t *bytes) {
    struct command command;
    uint32_t *fields[] = {&command.command, &command.sequence, &command.device,      &command.direction, &command.endpoint,
                          &command.flags,   &command.length,   &command.start_frame, &command.packets,   &command.interval};
    for (size_t at = 0; at < sizeof fields / sizeof *fields; at++)
        *fields[at] = read_four(bytes + 4 * at);
    memcpy(command.setup, bytes + 40, sizeof command.setup);
    return command;
}

struct packet read_packet(const uint8_t *bytes) {
    struct packet packet = {read_four(bytes), read_four(bytes + 4), 0, STATUS_DONE};
    return packet;
}

void write_packet(uint8_t *bytes, const struct packet *packet) {
    bytes = write_four(bytes, packet->offset);
    bytes = write_four(bytes, packet->length);
    bytes = write_four(bytes, packet->actual);
    write_four(bytes, (uint32_t)packet->status);
}

/* A reply names what it is and which command it answers; device, direction and endpoint are zero. */
static uint8_t *write_head(uint8_t *bytes, const struct command *command) {
    memset(bytes, 0, COMMAND_LENGTH);
    write_four(bytes, command->command + RETURN_OFFSET);
    write_four(bytes + 4, command->sequence);
    return bytes + 20;
}

void write_submitted(uint8_t *bytes, const struct command *command, struct outcome outcome) {
    bytes = write_head(bytes, command);
    bytes = write_four(bytes, (uint32_t)outcome.status);
    bytes = write_four(bytes, outcome.actual);
    bytes = write_four(bytes, command->start_frame);
    bytes = write_four(bytes, command->packets);
    write_four(bytes, outcome.errors);
}

void write_unlinked(uint8_t *bytes, const struct command *command, int32_t status) {
    write_four(write_head(bytes, command), (uint32_t)status);
}
