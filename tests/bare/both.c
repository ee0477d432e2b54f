/* both [EVENTS]: the small archive and the wide one, call by call. The wide one's exports are linked under the names wide_hk_..
 *
 * Each random event is given to every call that takes it, of both archives, on copies of the same memory. After each call the
 * number, and all bytes that the call may write, must agree: image, row, pipe, bytes, count, orders and part. The stack below
 * each call of the small archive is painted before, and the most that lost its paint is printed by call: tests/bare/stack
 * holds it to what boards/archive says. */
#include "../boundary/random_events.h"

#define PORTS 2
#define CUT_PIPE_EVENTS 9 /* no event of the pipe has this number or a higher one */

#define WIDE(name) extern __typeof__(name) wide_##name
WIDE(hk_open);
WIDE(hk_setup);
WIDE(hk_status_end);
WIDE(hk_bus_reset);
WIDE(hk_bus_reset_to);
WIDE(hk_halt);
WIDE(hk_packet_passed);
WIDE(hk_power);
WIDE(hk_suspend);
WIDE(hk_resume);
WIDE(hk_wake);
WIDE(hk_endpoint);
WIDE(hk_record_event);
WIDE(hk_two_open);
WIDE(hk_two_event);
WIDE(hk_two_endpoint);
WIDE(hk_port_event);
WIDE(hk_two_port_event);
WIDE(hk_table_event);
WIDE(hk_two_table_event);
WIDE(hk_packet);
WIDE(hk_pipe_event);
WIDE(hk_two_pipe_event);

/* What a call may write; the two archives' stand beside each other. */
struct memory {
    uint8_t image[HK_IMAGE_LENGTH], two_image[HK_IMAGE_LENGTH], pipe[HK_PIPE_LENGTH], two_pipe[HK_PIPE_LENGTH], bytes[2], count, out[6];
    hk_record record, row[PORTS], two_row[PORTS];
    hk_part part; /* the last */
};

static struct memory small, wide;
static const uint8_t *high;
static size_t high_length;
static unsigned long calls;

static void agree(const char *name, const struct event *event, uint8_t number, uint8_t wide_number) {
    calls++;
    if (number == wide_number && memcmp(&small, &wide, sizeof small) == 0)
        return;
    printf("both: call %lu, %s, differs: kind %d, value %02x, setup of %zu bytes, %02x %02x ..; numbers %d and %d\n", calls, name,
           event->kind, event->value, event->setup_length, event->setup[0], event->setup[1], number, wide_number);
    exit(1);
}

/* ---- the stack of the small archive's calls */
#define PAINTED 1024 /* bytes below the stack pointer */
#define LEFT_OUT 64  /* of them, for the painter's own frame */
#define PAINT 0xA5A5A5A5u
#define CALLS 32

static struct {
    const char *name;
    size_t most;
} depths[CALLS];

/* In the caller itself: a compiler keeps it the same through a function. */
static inline __attribute__((always_inline)) volatile uint32_t *stack_pointer(void) {
    volatile uint32_t *found;
#if defined(__thumb__)
    __asm__ volatile("mov %0, sp" : "=r"(found));
#else
    __asm__ volatile("mv %0, sp" : "=r"(found));
#endif
    return found;
}

static __attribute__((noinline)) void paint(volatile uint32_t *top) {
    for (volatile uint32_t *at = top - PAINTED / 4; at < top - LEFT_OUT / 4; at++)
        *at = PAINT;
}

static __attribute__((noinline)) void note_depth(const char *name, volatile uint32_t *top) {
    volatile uint32_t *at = top - PAINTED / 4;
    size_t depth;
    int call = 0;
    while (at < top - LEFT_OUT / 4 && *at == PAINT)
        at++;
    depth = at < top - LEFT_OUT / 4 ? 4 * (size_t)(top - at) : 0;
    while (depths[call].name && strcmp(depths[call].name, name) != 0)
        call++;
    depths[call].name = name;
    if (depth > depths[call].most)
        depths[call].most = depth;
}

/* One call of both archives; M stands for the memory of either. */
#define BOTH(name, ...) \
    do { \
        uint8_t number, wide_number; \
        { \
            struct memory *M = &small; \
            volatile uint32_t *top = stack_pointer(); \
            paint(top); \
            number = name(__VA_ARGS__); \
            note_depth(#name, top); \
        } \
        { \
            struct memory *M = &wide; \
            wide_number = a_byte(wide_##name(__VA_ARGS__)); \
        } \
        agree(#name, event, number, wide_number); \
    } while (0)

#define ONE_SET set, set_length, serial, serial_length
#define TWO_SETS set, set_length, high, high_length, serial, serial_length
#define IMAGE M->image, HK_IMAGE_LENGTH
#define TWO_IMAGE M->two_image, HK_IMAGE_LENGTH
#define SETUP event->setup, event->setup_length
#define ANSWER M->bytes, &M->count, &M->part

static void on_images(const struct event *event) {
    switch (event->kind) {
    case HK_EVENT_STATUS_END:
        BOTH(hk_status_end, ONE_SET, IMAGE);
        break;
    case HK_EVENT_BUS_RESET:
        BOTH(hk_bus_reset, ONE_SET, IMAGE);
        BOTH(hk_bus_reset_to, ONE_SET, IMAGE, event->value);
        break;
    case HK_EVENT_HALT:
        BOTH(hk_halt, ONE_SET, IMAGE, event->value);
        break;
    case HK_EVENT_PACKET_PASSED:
        BOTH(hk_packet_passed, ONE_SET, IMAGE, event->value);
        break;
    case HK_EVENT_SUSPEND:
        BOTH(hk_suspend, ONE_SET, IMAGE);
        break;
    case HK_EVENT_RESUME:
        BOTH(hk_resume, ONE_SET, IMAGE);
        break;
    case HK_EVENT_WAKE:
        BOTH(hk_wake, ONE_SET, IMAGE);
        break;
    case HK_EVENT_POWER:
        BOTH(hk_power, ONE_SET, IMAGE, event->value);
        break;
    default:
        BOTH(hk_setup, ONE_SET, IMAGE, SETUP, ANSWER);
    }
}

/* All that a call may write, as after power-on of the set that is lent now. */
static void open_all(void) {
    static const struct event none = {HK_EVENT_SETUP, 0, {0}, 0};
    const struct event *event = &none;
    BOTH(hk_open, ONE_SET, IMAGE);
    BOTH(hk_two_open, TWO_SETS, TWO_IMAGE);
    memcpy(&small.record, small.image, sizeof small.image);
    memcpy(&small.row[1], small.image, sizeof small.image);
    memcpy(&small.two_row[1], small.two_image, sizeof small.two_image);
    wide = small;
}

/* Now and then it is opened anew, or one byte of it is changed. */
static void before_event(void) {
    uint32_t at = below(offsetof(struct memory, part));
    if (below(64) == 0)
        open_all();
    else if (below(64) == 0)
        ((uint8_t *)&small)[at] = ((uint8_t *)&wide)[at] = (uint8_t)below(below(2) ? 4 : 256);
}

/* Every call is asked in its turn, so that each event costs a few calls. */
static void at_event(const struct event *event) {
    uint32_t choice = below(16), size = below(4) == 0 ? below(70) : 8u << below(4), nth = below(8) == 0 ? below(1u << 31) : below(6);
    uint16_t asked = (uint16_t)(below(4) == 0 ? below(65536) : below(64)), value = (uint16_t)(below(8) == 0 ? below(65536) : below(65));
    uint8_t which = (uint8_t)below(CUT_PIPE_EVENTS), place = (uint8_t)below(6);
    size_t port = below(8) == 0 ? below(1u << 31) : below(PORTS + 1), reply_length = below(set_length + 1);
    before_event();
    on_images(event);
    if (choice < 4)
        BOTH(hk_record_event, ONE_SET, &M->record, event->kind, event->value, SETUP, ANSWER);
    else if (choice < 5)
        BOTH(hk_port_event, ONE_SET, M->row, PORTS, port, event->kind, event->value, SETUP, ANSWER);
    else if (choice < 7)
        BOTH(hk_table_event, ONE_SET, IMAGE, event->kind, event->value, SETUP, ANSWER);
    else if (choice < 10)
        BOTH(hk_pipe_event, ONE_SET, IMAGE, M->pipe, HK_PIPE_LENGTH, set, reply_length, which, value, SETUP, M->out, &M->part);
    else if (choice < 11)
        BOTH(hk_endpoint, ONE_SET, IMAGE, place, &M->part);
    else if (choice < 12)
        BOTH(hk_packet, set, reply_length, asked, size, nth, &M->part);
    else if (choice < 13)
        BOTH(hk_two_event, TWO_SETS, TWO_IMAGE, event->kind, event->value, SETUP, ANSWER);
    else if (choice < 14)
        BOTH(hk_two_pipe_event, TWO_SETS, TWO_IMAGE, M->two_pipe, HK_PIPE_LENGTH, set, reply_length, which, value, SETUP, M->out, &M->part);
    else if (choice < 15)
        BOTH(hk_two_port_event, TWO_SETS, M->two_row, PORTS, port, event->kind, event->value, SETUP, ANSWER);
    else if (below(2) == 0)
        BOTH(hk_two_table_event, TWO_SETS, TWO_IMAGE, event->kind, event->value, SETUP, ANSWER);
    else
        BOTH(hk_two_endpoint, TWO_SETS, TWO_IMAGE, place, &M->part);
}

static void run_both(const hk_board *board, unsigned long events) {
    high = board->high;
    high_length = board->high_length;
    set = board->set;
    set_length = board->set_length;
    serial = board->serial;
    serial_length = board->serial_length;
    run_board(board, events);
}

int main(int argument_count, char **arguments) {
    unsigned long events = argument_count > 1 ? strtoul(arguments[1], NULL, 10) : 10000;
    for (int round = 0; round < 4; round++) {
        run_both(&bench_board, events / 16);
        run_both(&titrator_board, events / 16);
        run_both(&titrator_pair_board, events / 8);
    }
    for (int call = 0; depths[call].name; call++)
        printf("  stack %s %zu\n", depths[call].name, depths[call].most);
    printf("both: %lu calls of each archive, the same numbers and the same bytes\n", calls);
    return 0;
}
