/* Calls the library as a board would, by commands on standard input; tests/reference/src/protocol.rs describes them.
 *
 * Each block that is lent stands in a room of its own, between pages that may not be touched: at the room's end or front,
 * up to 3 bytes off the edge, with guard bytes on both sides. So a byte read or written beyond stops the program or shows. */
#define _DEFAULT_SOURCE

#include <signal.h>
#include <stdint.h>
#include <stdlib.h>
#include <string.h>
#include <sys/mman.h>
#include <unistd.h>

#include "heideklonk.h"

/* flags of a command */
#define NULL_FOR_EMPTY 1
#define AT_FRONT 2
#define DISTANCE(flags) ((size_t)((flags) >> 2 & 3))

/* errors of a response */
#define BYTES_CHANGED 1
#define PART_ASTRAY 2
#define MEMORY_TOUCHED 3
#define CALL_STOPPED 4
#define COMMAND_WRONG 5
#define WAYS_DIFFER 6

#define ROOM ((size_t)131072)
#define FORBIDDEN ((size_t)65536)
#define GUARD ((size_t)32)
#define GUARD_BYTE 0xC5
#define UNWRITTEN 0xA6

/* what an event of the pipe writes: the order, the count, two bytes, the room */
#define OUT_LENGTH 6

/* A block that is lent: its room, and a twin that the call does not know of. */
typedef struct block {
    uint8_t *room, *twin;
    size_t start, length;
} block;

static block set, high, serial, image, setup, bytes, count, part, reply, pieces, written, pipe_record, out;

/* What a hk_part points to before the call, so that it shows whether the call wrote it. */
static const uint8_t decoy[1];

static uint8_t input[1 << 16], output[1 << 16];
static size_t input_at, input_end, output_end;

static void stop(int status) {
    _exit(status);
}

static void flush(void) {
    size_t at = 0;
    while (at < output_end) {
        ssize_t written = write(1, output + at, output_end - at);
        if (written <= 0)
            stop(3);
        at += (size_t)written;
    }
    output_end = 0;
}

static void put(const uint8_t *from, size_t length) {
    while (length > 0) {
        if (output_end == sizeof output)
            flush();
        size_t room = sizeof output - output_end, chunk = room < length ? room : length;
        memcpy(output + output_end, from, chunk);
        output_end += chunk;
        from += chunk;
        length -= chunk;
    }
}

static void put_number(size_t number) {
    uint8_t little_endian[4];
    for (int at = 0; at < 4; at++)
        little_endian[at] = (uint8_t)(number >> 8 * at);
    put(little_endian, sizeof little_endian);
}

/* Ends the program where the input ends; the other side may wait for answers before it sends more. */
static void take(uint8_t *to, size_t length) {
    while (length > 0) {
        if (input_at == input_end) {
            flush();
            ssize_t got = read(0, input, sizeof input);
            if (got <= 0)
                stop(0);
            input_at = 0;
            input_end = (size_t)got;
        }
        size_t ready = input_end - input_at, chunk = ready < length ? ready : length;
        memcpy(to, input + input_at, chunk);
        input_at += chunk;
        to += chunk;
        length -= chunk;
    }
}

static uint8_t take_byte(void) {
    uint8_t byte;
    take(&byte, 1);
    return byte;
}

static uint32_t take_number(size_t length) {
    uint32_t number = 0;
    for (size_t at = 0; at < length; at++)
        number |= (uint32_t)take_byte() << 8 * at;
    return number;
}

static void respond_with_error(uint8_t error) {
    uint8_t nothing[13] = {0};
    put(&error, 1);
    put(nothing, sizeof nothing);
    put_number(0);
    flush();
    stop(3);
}

static void on_signal(int signal_number) {
    respond_with_error(signal_number == SIGSEGV || signal_number == SIGBUS ? MEMORY_TOUCHED : CALL_STOPPED);
}

static void make_room(block *block) {
    uint8_t *pages = mmap(NULL, FORBIDDEN + ROOM + FORBIDDEN, PROT_NONE, MAP_PRIVATE | MAP_ANONYMOUS, -1, 0);
    if (pages == MAP_FAILED || mprotect(pages + FORBIDDEN, ROOM, PROT_READ | PROT_WRITE) != 0)
        stop(4);
    block->room = pages + FORBIDDEN;
    block->twin = malloc(ROOM);
    if (block->twin == NULL)
        stop(4);
    memset(block->room, GUARD_BYTE, ROOM);
    memset(block->twin, GUARD_BYTE, ROOM);
}

/* The bytes that are watched: the block, and the guards beside it as far as the room goes. */
static size_t watch_from(const block *block) {
    return block->start > GUARD ? block->start - GUARD : 0;
}

static size_t watch_to(const block *block) {
    size_t end = block->start + block->length + GUARD;
    return end < ROOM ? end : ROOM;
}

static void place(block *block, size_t length, uint8_t flags, size_t alignment) {
    size_t distance = DISTANCE(flags) * alignment;
    if (length + distance > ROOM)
        respond_with_error(COMMAND_WRONG);
    block->length = length;
    block->start = flags & AT_FRONT ? distance : ROOM - distance - length;
    memset(block->room + watch_from(block), GUARD_BYTE, watch_to(block) - watch_from(block));
    memset(block->twin + watch_from(block), GUARD_BYTE, watch_to(block) - watch_from(block));
}

/* Places what comes next in the input. */
static void take_aligned(block *block, uint8_t flags, size_t alignment) {
    uint32_t length = take_number(4);
    place(block, length, flags, alignment);
    take(block->room + block->start, length);
    memcpy(block->twin + block->start, block->room + block->start, length);
}

static void take_block(block *block, uint8_t flags) {
    take_aligned(block, flags, 1);
}

/* Places what the call is to write. */
static void place_unwritten(block *block, size_t length, uint8_t flags, size_t alignment) {
    place(block, length, flags, alignment);
    memset(block->room + block->start, UNWRITTEN, length);
}

static uint8_t *lent(const block *block, uint8_t flags) {
    return block->length == 0 && flags & NULL_FOR_EMPTY ? NULL : block->room + block->start;
}

static int same(const block *block, size_t from, size_t to) {
    return memcmp(block->room + from, block->twin + from, to - from) == 0;
}

static int unchanged(const block *block) {
    return same(block, watch_from(block), watch_to(block));
}

static int guards_unchanged(const block *block) {
    size_t end = block->start + block->length;
    return same(block, watch_from(block), block->start) && same(block, end, watch_to(block));
}

/* Offset of a part in a block, or SIZE_MAX: pointers are compared as numbers, since they may point anywhere. */
static size_t offset_in(const block *block, hk_part found, uint8_t flags) {
    uintptr_t start = (uintptr_t)lent(block, flags), at = (uintptr_t)found.start;
    if (at < start || at - start > block->length || found.length > block->length - (at - start))
        return SIZE_MAX;
    return at - start;
}

static hk_part *unwritten_part(uint8_t flags) {
    hk_part before = {decoy, sizeof decoy};
    place(&part, sizeof before, flags, sizeof(void *));
    memcpy(part.room + part.start, &before, sizeof before);
    return (hk_part *)(void *)(part.room + part.start);
}

/* The number of a block in an answer. */
#define IN_SET 0
#define IN_SERIAL 1
#define IN_REPLY 2
#define IN_HIGH 3
#define NOWHERE 255

/* The answer to a call. */
static void respond(uint8_t error, uint8_t number, const uint8_t *answer, uint8_t answer_count, uint8_t block_number,
                    size_t offset, size_t length) {
    uint8_t head[6] = {error, number, answer_count, answer[0], answer[1], block_number};
    put(head, sizeof head);
    put_number(offset);
    put_number(length);
}

static void respond_with_image(void) {
    put_number(image.length);
    put(image.room + image.start, image.length);
}

static int lent_blocks_kept(void) {
    return unchanged(&set) && unchanged(&high) && unchanged(&serial) && guards_unchanged(&image);
}

/* What a call that may hand something back writes. */
static hk_part *unwritten_answer(uint8_t flags) {
    place_unwritten(&bytes, 2, flags, 1);
    place_unwritten(&count, 1, flags, 1);
    return unwritten_part(flags);
}

/* The block that a part lies in, and where: in the set, in the high-speed set where there is one, or in the serial block. */
static uint8_t block_of(hk_part found, uint8_t flags, int two, size_t *offset) {
    if ((*offset = offset_in(&set, found, flags)) != SIZE_MAX)
        return IN_SET;
    if (two && (*offset = offset_in(&high, found, flags)) != SIZE_MAX)
        return IN_HIGH;
    *offset = offset_in(&serial, found, flags);
    return IN_SERIAL;
}

/* What a call gave, beside the image that it left. */
typedef struct given {
    uint8_t number, bytes[2], count;
    hk_part part;
} given;

/* What an event without bytes or a part gives. */
static given number_alone(uint8_t number, uint8_t flags) {
    given gave = {number, {0, 0}, 0, {lent(&set, flags), 0}};
    return gave;
}

static given given_by(uint8_t number, const hk_part *found) {
    given gave = {number, {bytes.room[bytes.start], bytes.room[bytes.start + 1]}, count.room[count.start], *found};
    return gave;
}

/* The same event once more, by the second way, on the image as it was: it must give and leave the same. */
static void ask_second_way(int two, uint8_t event, uint8_t value, given first, uint8_t flags) {
    static uint8_t left[ROOM];
    uint8_t *image_at = image.room + image.start;
    memcpy(left, image_at, image.length);
    memcpy(image_at, image.twin + image.start, image.length);
    hk_part *found = unwritten_answer(flags);
    const uint8_t *set_lent = lent(&set, flags), *high_lent = lent(&high, flags), *serial_lent = lent(&serial, flags);
    const uint8_t *setup_lent = lent(&setup, flags);
    uint8_t *image_lent = lent(&image, flags), *bytes_at = bytes.room + bytes.start, *count_at = count.room + count.start;
    uint8_t number = two ? hk_two_table_event(set_lent, set.length, high_lent, high.length, serial_lent, serial.length, image_lent,
                                              image.length, event, value, setup_lent, setup.length, bytes_at, count_at, found)
                         : hk_table_event(set_lent, set.length, serial_lent, serial.length, image_lent, image.length, event,
                                          value, setup_lent, setup.length, bytes_at, count_at, found);
    given second = given_by(number, found);
    if (first.number != second.number || memcmp(first.bytes, second.bytes, sizeof first.bytes) != 0 || first.count != second.count ||
        first.part.start != second.part.start || first.part.length != second.part.length || memcmp(left, image_at, image.length) != 0)
        respond_with_error(WAYS_DIFFER);
}

static void respond_with_part_of(int two, uint8_t number, const hk_part *found, uint8_t flags) {
    size_t offset;
    int kept = lent_blocks_kept() && unchanged(&setup) && guards_unchanged(&bytes) && guards_unchanged(&count) &&
               guards_unchanged(&part);
    uint8_t block_number = block_of(*found, flags, two, &offset);
    respond(!kept ? BYTES_CHANGED : offset == SIZE_MAX ? PART_ASTRAY : 0, number, bytes.room + bytes.start,
            count.room[count.start], block_number, offset, found->length);
    respond_with_image();
}

static void respond_with_answer(uint8_t number, const hk_part *found, uint8_t flags) {
    respond_with_part_of(0, number, found, flags);
}

static void call_setup(uint8_t flags) {
    take_block(&image, flags);
    take_block(&setup, flags);
    hk_part *found = unwritten_answer(flags);
    uint8_t number = hk_setup(lent(&set, flags), set.length, lent(&serial, flags), serial.length, lent(&image, flags),
                              image.length, lent(&setup, flags), setup.length, bytes.room + bytes.start,
                              count.room + count.start, found);
    ask_second_way(0, HK_EVENT_SETUP, 0, given_by(number, found), flags);
    respond_with_answer(number, found, flags);
}

/* Any event by its number, on an aligned record. */
static void call_record_event(uint8_t flags) {
    uint8_t event = take_byte(), value = take_byte();
    take_aligned(&image, flags, sizeof(uint32_t));
    take_block(&setup, flags);
    if (image.length != sizeof(hk_record))
        respond_with_error(COMMAND_WRONG);
    hk_part *found = unwritten_answer(flags);
    uint8_t number = hk_record_event(lent(&set, flags), set.length, lent(&serial, flags), serial.length,
                                     (hk_record *)(void *)(image.room + image.start), event, value, lent(&setup, flags),
                                     setup.length, bytes.room + bytes.start, count.room + count.start, found);
    ask_second_way(0, event, value, given_by(number, found), flags);
    respond_with_answer(number, found, flags);
}

/* Any event by its number, with two sets and an image of any length. */
static void call_two_event(uint8_t flags) {
    uint8_t event = take_byte(), value = take_byte();
    take_block(&image, flags);
    take_block(&setup, flags);
    hk_part *found = unwritten_answer(flags);
    uint8_t number = hk_two_event(lent(&set, flags), set.length, lent(&high, flags), high.length, lent(&serial, flags),
                                  serial.length, lent(&image, flags), image.length, event, value, lent(&setup, flags),
                                  setup.length, bytes.room + bytes.start, count.room + count.start, found);
    ask_second_way(1, event, value, given_by(number, found), flags);
    respond_with_part_of(1, number, found, flags);
}

/* A port that has no room in a size_t is none of any row's, as the highest that has. */
static size_t take_port(void) {
    uint64_t port = take_number(4);
    port |= (uint64_t)take_number(4) << 32;
    return port > SIZE_MAX ? SIZE_MAX : (size_t)port;
}

/* Any event by its number, at a port of a row of aligned records. */
static void call_port_event(uint8_t operation, uint8_t flags) {
    size_t port = take_port();
    uint8_t event = take_byte(), value = take_byte(), number;
    take_aligned(&image, flags, sizeof(uint32_t));
    take_block(&setup, flags);
    if (image.length % sizeof(hk_record) != 0)
        respond_with_error(COMMAND_WRONG);
    hk_part *found = unwritten_answer(flags);
    hk_record *row = (hk_record *)(void *)lent(&image, flags);
    size_t row_length = image.length / sizeof(hk_record);
    if (operation == 'Q')
        number = hk_two_port_event(lent(&set, flags), set.length, lent(&high, flags), high.length, lent(&serial, flags),
                                   serial.length, row, row_length, port, event, value, lent(&setup, flags), setup.length,
                                   bytes.room + bytes.start, count.room + count.start, found);
    else
        number = hk_port_event(lent(&set, flags), set.length, lent(&serial, flags), serial.length, row, row_length, port,
                               event, value, lent(&setup, flags), setup.length, bytes.room + bytes.start,
                               count.room + count.start, found);
    respond_with_part_of(operation == 'Q', number, found, flags);
}

/* The block that a packet of the pipe lies in. */
static uint8_t packet_block(hk_part found, uint8_t flags, int two, size_t *offset) {
    if (offset_in(&set, found, flags) == SIZE_MAX && (*offset = offset_in(&reply, found, flags)) != SIZE_MAX)
        return IN_REPLY;
    return block_of(found, flags, two, offset);
}

/* Any event of the pipe: the image is the order, the room, the pipe record and the image. */
static void call_pipe_event(uint8_t operation, uint8_t flags) {
    int two = operation == 'C';
    uint8_t event = take_byte(), number;
    uint16_t value = (uint16_t)take_number(2);
    take_block(&image, flags);
    take_block(&pipe_record, flags);
    take_block(&reply, flags);
    take_block(&setup, flags);
    place_unwritten(&out, OUT_LENGTH, flags, 1);
    hk_part *found = unwritten_part(flags);
    if (set.length == 0)
        flags &= (uint8_t)~NULL_FOR_EMPTY; /* a part of NULL would lie in the set and in the reply */
    uint8_t *image_lent = lent(&image, flags), *pipe_lent = lent(&pipe_record, flags), *out_at = out.room + out.start;
    const uint8_t *reply_lent = lent(&reply, flags), *setup_lent = lent(&setup, flags);
    if (two)
        number = hk_two_pipe_event(lent(&set, flags), set.length, lent(&high, flags), high.length, lent(&serial, flags),
                                   serial.length, image_lent, image.length, pipe_lent, pipe_record.length, reply_lent,
                                   reply.length, event, value, setup_lent, setup.length, out_at, found);
    else
        number = hk_pipe_event(lent(&set, flags), set.length, lent(&serial, flags), serial.length, image_lent, image.length,
                               pipe_lent, pipe_record.length, reply_lent, reply.length, event, value, setup_lent,
                               setup.length, out_at, found);
    size_t offset;
    uint8_t block_number = packet_block(*found, flags, two, &offset);
    int kept = lent_blocks_kept() && guards_unchanged(&pipe_record) && unchanged(&reply) && unchanged(&setup) &&
               guards_unchanged(&out) && guards_unchanged(&part);
    respond(!kept ? BYTES_CHANGED : offset == SIZE_MAX ? PART_ASTRAY : 0, number, out_at + 2, out_at[1], block_number, offset,
            found->length);
    put_number(1 + 2 + pipe_record.length + image.length);
    put(out_at, 1);
    put(out_at + 4, 2);
    put(pipe_record.room + pipe_record.start, pipe_record.length);
    put(image.room + image.start, image.length);
}

static void call_two_open(uint8_t flags) {
    static const uint8_t no_answer[2];
    take_block(&image, flags);
    uint8_t number = hk_two_open(lent(&set, flags), set.length, lent(&high, flags), high.length, lent(&serial, flags),
                                 serial.length, lent(&image, flags), image.length);
    respond(lent_blocks_kept() ? 0 : BYTES_CHANGED, number, no_answer, 0, IN_SET, 0, 0);
    respond_with_image();
}

/* The calls that only lend set, serial block and image, and those that name an endpoint, a power source or a speed too. */
static void call_event(uint8_t operation, uint8_t flags) {
    static const uint8_t no_answer[2];
    int has_value = operation == 'h' || operation == 'p' || operation == 'P' || operation == 'R';
    uint8_t value = has_value ? take_byte() : 0;
    take_block(&image, flags);
    const uint8_t *set_lent = lent(&set, flags), *serial_lent = lent(&serial, flags);
    uint8_t *image_lent = lent(&image, flags), event = HK_EVENT_SETUP, number;
    switch (operation) {
    case 'o':
        number = hk_open(set_lent, set.length, serial_lent, serial.length, image_lent, image.length);
        break;
    case 'f':
        number = hk_super_open(set_lent, set.length, serial_lent, serial.length, image_lent, image.length);
        break;
    case 'e':
        event = HK_EVENT_STATUS_END;
        number = hk_status_end(set_lent, set.length, serial_lent, serial.length, image_lent, image.length);
        break;
    case 'r':
        event = HK_EVENT_BUS_RESET;
        number = hk_bus_reset(set_lent, set.length, serial_lent, serial.length, image_lent, image.length);
        break;
    case 'R':
        event = HK_EVENT_BUS_RESET;
        number = hk_bus_reset_to(set_lent, set.length, serial_lent, serial.length, image_lent, image.length, value);
        break;
    case 'h':
        event = HK_EVENT_HALT;
        number = hk_halt(set_lent, set.length, serial_lent, serial.length, image_lent, image.length, value);
        break;
    case 'z':
        event = HK_EVENT_SUSPEND;
        number = hk_suspend(set_lent, set.length, serial_lent, serial.length, image_lent, image.length);
        break;
    case 'y':
        event = HK_EVENT_RESUME;
        number = hk_resume(set_lent, set.length, serial_lent, serial.length, image_lent, image.length);
        break;
    case 'a':
        event = HK_EVENT_WAKE;
        number = hk_wake(set_lent, set.length, serial_lent, serial.length, image_lent, image.length);
        break;
    case 'P':
        event = HK_EVENT_POWER;
        number = hk_power(set_lent, set.length, serial_lent, serial.length, image_lent, image.length, value);
        break;
    default:
        event = HK_EVENT_PACKET_PASSED;
        number = hk_packet_passed(set_lent, set.length, serial_lent, serial.length, image_lent, image.length, value);
    }
    if (event != HK_EVENT_SETUP)
        ask_second_way(0, event, value, number_alone(number, flags), flags);
    respond(lent_blocks_kept() ? 0 : BYTES_CHANGED, number, no_answer, 0, IN_SET, 0, 0);
    respond_with_image();
}

static void call_packet(uint8_t flags) {
    static const uint8_t no_answer[2];
    place(&reply, take_number(4), flags, 1);
    uint16_t asked = (uint16_t)take_number(2);
    uint32_t size = take_number(4), number = take_number(4);
    hk_part *found = unwritten_part(flags);
    uint8_t result = hk_packet(lent(&reply, flags), reply.length, asked, size, number, found);
    size_t offset = offset_in(&reply, *found, flags);
    int kept = unchanged(&reply) && guards_unchanged(&part);
    respond(!kept ? BYTES_CHANGED : offset == SIZE_MAX ? PART_ASTRAY : 0, result, no_answer, 0, IN_REPLY, offset,
            found->length);
    put_number(0);
}

/* The makers' calls: pieces, a dump or the set into a buffer. The buffer is lent as the image is: it is given back whole. */
static void call_maker(uint8_t operation, uint8_t flags) {
    static const uint8_t no_answer[2];
    if (operation != 'x')
        take_block(&pieces, flags);
    take_block(&image, flags);
    place_unwritten(&written, sizeof(uint16_t), flags, sizeof(uint16_t));
    uint16_t *length = (uint16_t *)(void *)(written.room + written.start);
    uint8_t *buffer = lent(&image, flags), number;
    if (operation == 'w')
        number = hk_write(lent(&pieces, flags), pieces.length, lent(&serial, flags), serial.length, buffer, image.length,
                          length);
    else if (operation == 'F')
        number = hk_super_write(lent(&pieces, flags), pieces.length, lent(&serial, flags), serial.length, buffer,
                                image.length, length);
    else if (operation == 'i')
        number = hk_import(lent(&pieces, flags), pieces.length, buffer, image.length, length);
    else
        number = hk_export(lent(&set, flags), set.length, lent(&serial, flags), serial.length, buffer, image.length, length);
    int kept = lent_blocks_kept() && unchanged(&pieces) && guards_unchanged(&written);
    respond(kept ? 0 : BYTES_CHANGED, number, no_answer, 0, IN_SET, 0, *length);
    respond_with_image();
}

/* The set is the buffer: it is lent as the image is. */
static void call_trim(uint8_t flags) {
    static const uint8_t no_answer[2];
    take_block(&image, flags);
    place_unwritten(&written, sizeof(uint16_t), flags, sizeof(uint16_t));
    uint16_t *total = (uint16_t *)(void *)(written.room + written.start);
    uint8_t number = hk_trim(lent(&image, flags), image.length, lent(&serial, flags), serial.length, total);
    int kept = lent_blocks_kept() && guards_unchanged(&written);
    respond(kept ? 0 : BYTES_CHANGED, number, no_answer, 0, IN_SET, 0, *total);
    respond_with_image();
}

/* hk_two_explain's block, as a response has it. */
static uint8_t told_block(uint8_t block) {
    return block == HK_BLOCK_FULL ? IN_SET : block == HK_BLOCK_HIGH ? IN_HIGH : block == HK_BLOCK_SERIAL ? IN_SERIAL : NOWHERE;
}

/* The answer's bytes are the rule, its block and its offset are the place. */
static void call_explain(uint8_t operation, uint8_t flags) {
    place_unwritten(&bytes, sizeof(uint16_t), flags, sizeof(uint16_t));
    place_unwritten(&written, sizeof(uint32_t), flags, sizeof(uint32_t));
    place_unwritten(&count, 1, flags, 1);
    uint16_t *rule = (uint16_t *)(void *)(bytes.room + bytes.start);
    uint32_t *place = (uint32_t *)(void *)(written.room + written.start);
    uint8_t *block = count.room + count.start, number, told_in;
    const uint8_t *set_lent = lent(&set, flags), *serial_lent = lent(&serial, flags);
    if (operation == 'Z')
        number = hk_two_explain(set_lent, set.length, lent(&high, flags), high.length, serial_lent, serial.length, block, rule, place);
    else if (operation == 'Y')
        number = hk_super_explain(set_lent, set.length, serial_lent, serial.length, rule, place);
    else
        number = hk_explain(set_lent, set.length, serial_lent, serial.length, rule, place);
    told_in = operation == 'Z' ? told_block(*block) : number == HK_SERIAL_BROKEN ? IN_SERIAL : IN_SET;
    uint8_t told[2] = {(uint8_t)*rule, (uint8_t)(*rule >> 8)};
    int kept = unchanged(&set) && unchanged(&high) && unchanged(&serial) && guards_unchanged(&bytes) &&
               guards_unchanged(&written) && guards_unchanged(&count);
    respond(!kept ? BYTES_CHANGED : told_in == NOWHERE ? PART_ASTRAY : 0, number, told, 2, told_in, *place, 0);
    put_number(0);
}

/* The image is only read. */
static void call_endpoint(uint8_t operation, uint8_t flags) {
    static const uint8_t no_answer[2];
    uint8_t number = take_byte(), result;
    size_t offset;
    take_block(&image, flags);
    hk_part *found = unwritten_part(flags);
    if (operation == 'N')
        result = hk_two_endpoint(lent(&set, flags), set.length, lent(&high, flags), high.length, lent(&serial, flags),
                                 serial.length, lent(&image, flags), image.length, number, found);
    else
        result = hk_endpoint(lent(&set, flags), set.length, lent(&serial, flags), serial.length, lent(&image, flags),
                             image.length, number, found);
    uint8_t block_number = block_of(*found, flags, operation == 'N', &offset);
    int kept = lent_blocks_kept() && unchanged(&image) && guards_unchanged(&part);
    respond(!kept ? BYTES_CHANGED : offset == SIZE_MAX ? PART_ASTRAY : 0, result, no_answer, 0, block_number, offset,
            found->length);
    respond_with_image();
}

int main(void) {
    block *blocks[] = {&set, &high, &serial, &image, &setup, &bytes, &count, &part, &reply, &pieces, &written, &pipe_record, &out};
    int stopping[] = {SIGSEGV, SIGBUS, SIGILL, SIGTRAP, SIGFPE, SIGABRT};
    for (size_t at = 0; at < sizeof blocks / sizeof *blocks; at++)
        make_room(blocks[at]);
    for (size_t at = 0; at < sizeof stopping / sizeof *stopping; at++)
        signal(stopping[at], on_signal);
    for (;;) {
        uint8_t operation = take_byte(), flags = take_byte();
        switch (operation) {
        case 'S':
            take_block(&set, flags);
            break;
        case 'U':
            take_block(&serial, flags);
            break;
        case 'H':
            take_block(&high, flags);
            break;
        case 's':
            call_setup(flags);
            break;
        case 'k':
            call_packet(flags);
            break;
        case 'n': case 'N':
            call_endpoint(operation, flags);
            break;
        case 'q': case 'Q':
            call_port_event(operation, flags);
            break;
        case 'c': case 'C':
            call_pipe_event(operation, flags);
            break;
        case 'O':
            call_two_open(flags);
            break;
        case 'V':
            call_two_event(flags);
            break;
        case 't':
            call_trim(flags);
            break;
        case 'X': case 'Y': case 'Z':
            call_explain(operation, flags);
            break;
        case 'w': case 'F': case 'i': case 'x':
            call_maker(operation, flags);
            break;
        case 'v':
            call_record_event(flags);
            break;
        case 'o': case 'f': case 'e': case 'r': case 'R': case 'h': case 'p': case 'P': case 'z': case 'y': case 'a':
            call_event(operation, flags);
            break;
        default:
            respond_with_error(COMMAND_WRONG);
        }
    }
}
