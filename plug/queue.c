#include "queue.h"

#include <stdio.h>
#include <stdlib.h>
#include <string.h>
#include <time.h>

#include "../tools/host/words.h"

#define NOBODY_WAITS (-1)
#define MOST_EARLY 64

/* A transfer that waits. */
struct waiting {
    struct command command;
    uint8_t *data; /* command.length bytes: the host's, or room for the device's */
    uint8_t *packets; /* of an isochronous transfer, as they came */
    uint32_t moved;
    int empty_packet_owed; /* OUT: the transfer ends with a packet of its own */
    struct outcome outcome;
};

static struct host *plugged;
static struct replies *outbox;
static struct waiting waiting[MOST_WAITING_TRANSFERS];
static size_t waiting_count, waiting_bytes;
static uint32_t newest; /* the last sequence number of a submit */
static uint32_t early[MOST_EARLY]; /* those of submits that were unlinked before they came */
static size_t early_count;
static uint64_t due[32]; /* by the endpoints' bits: when a paced one has its next packet, in microseconds */

static uint64_t microseconds(void) {
    struct timespec now;
    clock_gettime(CLOCK_MONOTONIC, &now);
    return (uint64_t)now.tv_sec * 1000000 + (uint64_t)now.tv_nsec / 1000;
}

/* ---- Replies. */

static uint8_t *more_replies(size_t length) {
    uint8_t *start = outbox->bytes + outbox->length;
    outbox->length += length;
    return start;
}

/* Only what goes to the host has data behind the reply. */
static void reply(const struct command *command, struct outcome outcome, const uint8_t *data) {
    if (outcome.status == STATUS_DONE && outcome.actual < command->length && command->direction &&
        command->flags & FLAG_SHORT_IS_AN_ERROR)
        outcome.status = STATUS_SHORT;
    write_submitted(more_replies(COMMAND_LENGTH), command, outcome);
    if (command->direction && outcome.actual > 0)
        memcpy(more_replies(outcome.actual), data, outcome.actual);
}

/* Behind it go the descriptors of an isochronous transfer's packets, whatever became of it. */
static void reply_packets(const struct command *command, const uint8_t *packets) {
    size_t length = packets == NULL ? 0 : (size_t)PACKET_LENGTH * command->packets;
    if (length > 0)
        memcpy(more_replies(length), packets, length);
}

static void refuse_transfer(const struct command *command, const uint8_t *packets, int32_t status) {
    struct outcome outcome = {status, 0, 0};
    reply(command, outcome, NULL);
    reply_packets(command, packets);
}

/* ---- Control transfers. */

/* The number with which a control transfer ended, its answer in the host. */
static uint8_t transfer_control(const struct command *command, const uint8_t *data) {
    if (command->direction || command->length == 0)
        return request(plugged, command->setup);
    return give_bytes(plugged, command->setup, data);
}

/* What the host says of direction and length goes with the setup. Its room may be another than wLength. */
static int fits_setup(const struct command *command) {
    unsigned asked = two_bytes(command->setup + 6), reads = (command->setup[0] & ENDPOINT_IN) != 0;
    if (asked == 0 || !reads)
        return command->length == asked && (asked == 0 || !command->direction);
    return command->direction == reads;
}

static void submit_control(const struct command *command, const uint8_t *data) {
    int failures = plugged->failures;
    uint8_t number = transfer_control(command, data);
    struct outcome outcome = {STATUS_DONE, command->length, 0};
    if (command->direction)
        outcome.actual = (uint32_t)plugged->length;
    if (number != HK_DONE)
        outcome.status = STATUS_STALL;
    else if (plugged->failures != failures)
        outcome.status = STATUS_NO_SUCH_ENDPOINT;
    else if (outcome.actual > command->length)
        outcome.status = STATUS_OVERFLOW;
    if (outcome.status != STATUS_DONE)
        outcome.actual = 0;
    reply(command, outcome, plugged->bytes);
    instrument_follow_settings();
}

/* ---- Packets of the other endpoints. */

static const uint8_t *endpoint_of(const struct command *command) {
    return open_endpoint((uint8_t)(command->endpoint | (command->direction ? ENDPOINT_IN : 0)));
}

static int end(struct waiting *transfer, int32_t status) {
    transfer->outcome.status = status;
    transfer->outcome.actual = transfer->moved;
    return 1;
}

/* An interrupt or isochronous endpoint that is never at a loss has a packet a period. */
static int is_paced(const uint8_t *endpoint) {
    unsigned type = endpoint_type(endpoint);
    return instrument_is_source(endpoint) && (type == TRANSFER_INTERRUPT || type == TRANSFER_ISOCHRONOUS);
}

static void pace(const uint8_t *endpoint, uint32_t packets) {
    uint64_t now = microseconds(), *next = &due[endpoint_bit(endpoint)];
    *next = (*next + 1000 < now ? now : *next) + packets * endpoint_period(endpoint);
}

/* The device hears of the packet: 1 if it passed. */
static int pass(const uint8_t *endpoint) {
    enum wire_answer answer = wire_pass_packet(endpoint[2]);
    show_fault(wire_heard());
    pace(endpoint, 1);
    return answer == WIRE_DONE;
}

/* A packet to the device; 1 if the transfer has ended. */
static int send_one(struct waiting *transfer, const uint8_t *endpoint) {
    size_t left = transfer->command.length - transfer->moved, most = endpoint_packet(endpoint);
    size_t length = left < most ? left : most;
    if (!pass(endpoint))
        return end(transfer, STATUS_STALL);
    instrument_take(endpoint, transfer->data + transfer->moved, length);
    transfer->moved += (uint32_t)length;
    if (length < left)
        return 0;
    if (length == most && transfer->empty_packet_owed) {
        transfer->empty_packet_owed = 0;
        return 0;
    }
    return end(transfer, STATUS_DONE);
}

/* A packet of so many bytes from the device; 1 if the transfer has ended. One that is longer than the host's room is not
 * acknowledged, so the device keeps it. */
static int receive_one(struct waiting *transfer, const uint8_t *endpoint, size_t length) {
    size_t left = transfer->command.length - transfer->moved;
    if (length > left)
        return end(transfer, STATUS_OVERFLOW);
    if (!pass(endpoint))
        return end(transfer, STATUS_STALL);
    instrument_give(endpoint, transfer->data + transfer->moved, length);
    transfer->moved += (uint32_t)length;
    return length < endpoint_packet(endpoint) || length == left ? end(transfer, STATUS_DONE) : 0;
}

/* How many bytes the next packet has, NOTHING_YET while there is none. */
static size_t next_packet(const struct waiting *transfer, const uint8_t *endpoint) {
    size_t left = transfer->command.length - transfer->moved, most = endpoint_packet(endpoint);
    if (is_paced(endpoint) && microseconds() < due[endpoint_bit(endpoint)])
        return NOTHING_YET;
    if (transfer->command.direction)
        return instrument_ready(endpoint, left, transfer->moved);
    return instrument_has_room(endpoint, left < most ? left : most) ? 0 : NOTHING_YET;
}

/* Packets of a bulk or interrupt transfer until it has ended, 1, or must wait, 0. */
static int advance_packets(struct waiting *transfer, const uint8_t *endpoint) {
    size_t length;
    int ended = 0;
    if (is_halted_now(endpoint))
        return end(transfer, STATUS_STALL);
    while (!ended && (length = next_packet(transfer, endpoint)) != NOTHING_YET)
        ended = transfer->command.direction ? receive_one(transfer, endpoint, length) : send_one(transfer, endpoint);
    return ended;
}

/* One packet of an isochronous transfer: what goes to the host stands in the reply without gaps. */
static void move_packet(struct waiting *transfer, const uint8_t *endpoint, uint8_t *described) {
    struct packet packet = read_packet(described);
    size_t most = endpoint_packet(endpoint);
    packet.actual = packet.length < most ? packet.length : (uint32_t)most;
    if (transfer->command.direction)
        instrument_give(endpoint, transfer->data + transfer->moved, packet.actual);
    transfer->moved += packet.actual;
    write_packet(described, &packet);
}

/* All packets at once, when the last is due. */
static int advance_isochronous(struct waiting *transfer, const uint8_t *endpoint) {
    if (transfer->packets == NULL)
        return end(transfer, STATUS_INVALID);
    if (microseconds() < due[endpoint_bit(endpoint)])
        return 0;
    pace(endpoint, transfer->command.packets);
    for (uint32_t at = 0; at < transfer->command.packets; at++)
        move_packet(transfer, endpoint, transfer->packets + (size_t)PACKET_LENGTH * at);
    return end(transfer, STATUS_DONE);
}

static int advance(struct waiting *transfer) {
    const uint8_t *endpoint = endpoint_of(&transfer->command);
    if (endpoint == NULL)
        return end(transfer, STATUS_NO_SUCH_ENDPOINT);
    if (endpoint_type(endpoint) == TRANSFER_ISOCHRONOUS)
        return advance_isochronous(transfer, endpoint);
    return transfer->packets != NULL ? end(transfer, STATUS_INVALID) : advance_packets(transfer, endpoint);
}

/* ---- The queue. */

static void forget(size_t at) {
    waiting_bytes -= waiting[at].command.length;
    free(waiting[at].data);
    free(waiting[at].packets);
    waiting_count--;
    memmove(waiting + at, waiting + at + 1, (waiting_count - at) * sizeof *waiting);
}

void queue_start(struct host *host, struct replies *replies) {
    plugged = host;
    outbox = replies;
    while (waiting_count > 0)
        forget(waiting_count - 1);
    memset(due, 0, sizeof due);
    newest = 0;
    early_count = 0;
}

static void *copied(const uint8_t *bytes, size_t length) {
    void *copy = malloc(length > 0 ? length : 1);
    if (copy != NULL && bytes != NULL)
        memcpy(copy, bytes, length);
    return copy;
}

/* Isochronous packets lie inside the transfer's bytes, and are no more than these altogether. */
static int has_sound_packets(const struct command *command, const uint8_t *packets) {
    uint64_t sum = 0;
    for (uint32_t at = 0; packets != NULL && at < command->packets; at++) {
        struct packet packet = read_packet(packets + (size_t)PACKET_LENGTH * at);
        if (packet.length > command->length || packet.offset > command->length - packet.length)
            return 0;
        sum += packet.length;
    }
    return sum <= command->length;
}

static int enqueue(const struct command *command, const uint8_t *data, const uint8_t *packets) {
    struct waiting *transfer = &waiting[waiting_count];
    memset(transfer, 0, sizeof *transfer);
    transfer->command = *command;
    transfer->data = copied(data, command->length);
    transfer->packets = packets == NULL ? NULL : copied(packets, (size_t)PACKET_LENGTH * command->packets);
    transfer->empty_packet_owed = command->length > 0 && command->flags & FLAG_EMPTY_PACKET_AT_THE_END;
    waiting_count++;
    waiting_bytes += command->length;
    if (transfer->data != NULL && (packets == NULL || transfer->packets != NULL))
        return 1;
    forget(waiting_count - 1);
    return 0;
}

/* ---- Unlinking. Linux may send an unlink ahead of its submit, since it sends from two lists: then the submit, when it comes,
 * has no answer. */

static int is_newer(uint32_t sequence) {
    return (int32_t)(sequence - newest) > 0;
}

/* Whether the submit was unlinked before it came. */
static int was_unlinked(uint32_t sequence) {
    size_t at = 0;
    if (is_newer(sequence))
        newest = sequence;
    while (at < early_count && early[at] != sequence)
        at++;
    if (at == early_count)
        return 0;
    early[at] = early[--early_count];
    return 1;
}

/* One that has ended already is not there. */
void queue_unlink(const struct command *command) {
    uint32_t sequence = command->flags;
    size_t at = 0;
    while (at < waiting_count && waiting[at].command.sequence != sequence)
        at++;
    int is_early = at == waiting_count && is_newer(sequence) && early_count < MOST_EARLY;
    write_unlinked(more_replies(COMMAND_LENGTH), command, at < waiting_count || is_early ? STATUS_UNLINKED : STATUS_DONE);
    if (at < waiting_count)
        forget(at);
    if (is_early)
        early[early_count++] = sequence;
}

void queue_submit(const struct command *command, const uint8_t *data, const uint8_t *packets) {
    if (was_unlinked(command->sequence))
        return;
    if (command->endpoint == 0 && packets == NULL && fits_setup(command))
        submit_control(command, data);
    else if (command->endpoint == 0 || !has_sound_packets(command, packets))
        refuse_transfer(command, packets, STATUS_INVALID);
    else if (waiting_count == MOST_WAITING_TRANSFERS || waiting_bytes + command->length > MOST_WAITING_BYTES ||
             !enqueue(command, data, packets))
        refuse_transfer(command, packets, STATUS_OUT_OF_MEMORY);
    queue_progress();
}

static void reply_waiting(const struct waiting *transfer) {
    reply(&transfer->command, transfer->outcome, transfer->data);
    reply_packets(&transfer->command, transfer->packets);
}

static unsigned endpoint_of_wait(const struct waiting *transfer) {
    return transfer->command.endpoint + (transfer->command.direction ? 16 : 0);
}

/* One turn over all that waits, each endpoint's first alone: whether something moved. */
static int take_turn(void) {
    uint32_t taken = 0;
    int moved = 0;
    for (size_t at = 0; at < waiting_count;) {
        struct waiting *transfer = &waiting[at];
        uint32_t bit = (uint32_t)1 << endpoint_of_wait(transfer), before = transfer->moved;
        int ended = !(taken & bit) && advance(transfer);
        moved |= ended || transfer->moved != before;
        taken |= bit;
        if (ended)
            reply_waiting(transfer), forget(at);
        else
            at++;
    }
    return moved;
}

void queue_progress(void) {
    while (take_turn())
        ;
}

int queue_patience(void) {
    uint64_t now = microseconds(), first = UINT64_MAX;
    for (size_t at = 0; at < waiting_count; at++) {
        const uint8_t *endpoint = endpoint_of(&waiting[at].command);
        if (endpoint != NULL && is_paced(endpoint) && due[endpoint_bit(endpoint)] < first)
            first = due[endpoint_bit(endpoint)];
    }
    if (first == UINT64_MAX)
        return NOBODY_WAITS;
    return first <= now ? 0 : (int)((first - now + 999) / 1000);
}
