/* board [EVENTS]: each function of heideklonk_board.h beside the call of heideklonk.h that it stands for.
 *
 * The same random events go to two copies of a record, by the one and by the other, on a board with one set, with two, and
 * at the ports of both. After each of them number, bytes, count, part and all bytes of the records must agree. Every
 * function must have given HK_DONE. This file is compiled as C99 and as C++. */
#include "random_events.h"

#include "heideklonk_board.h"

#define PORTS 3
#define ONE_LENT set, set_length, serial, serial_length
#define TWO_LENT pair.set, pair.set_length, pair.high, pair.high_length, pair.serial, pair.serial_length
#define IMAGE(record) (uint8_t *)&(record), sizeof(record)
#define INTO(answer) (answer).bytes, &(answer).count, &(answer).part

enum function {
    START, ASK, TELL, CURRENT_ENDPOINT,
    TWO_START, TWO_ASK, TWO_TELL, TWO_CURRENT_ENDPOINT,
    PORT_ASK, PORT_TELL, TWO_PORT_ASK, TWO_PORT_TELL,
    CUT, STEP, TWO_STEP, FUNCTIONS
};

static const char *const names[FUNCTIONS] = {
    "hk_start", "hk_ask", "hk_tell", "hk_current_endpoint",
    "hk_two_start", "hk_two_ask", "hk_two_tell", "hk_two_current_endpoint",
    "hk_port_ask", "hk_port_tell", "hk_two_port_ask", "hk_two_port_tell",
    "hk_cut", "hk_step", "hk_two_step",
};

/* A record by the call, and by the function. */
struct both {
    hk_record call, function;
};

/* A record and a pipe by the call, and by the function. */
struct both_pipes {
    struct both record;
    uint8_t call[HK_PIPE_LENGTH];
    hk_pipe function;
};

static struct both one, two;
static struct both_pipes pipe_of_one, pipe_of_two;
static const uint8_t own_reply[70] = {1, 2, 3};
static hk_record call_row[PORTS], function_row[PORTS], call_two_row[PORTS], function_two_row[PORTS];
static hk_board pair;
static unsigned long done, reached[FUNCTIONS];

static hk_answer no_answer(void) {
    hk_answer answer = {255, {0, 0}, 0, HK_NO_PART};
    return answer;
}

/* What the function gave, beside what the call gave, and the records that they left. */
static void compare(enum function which, hk_answer found, hk_answer expected, const void *left, const void *expected_left,
                    size_t length) {
    done++;
    reached[which] += found.number == HK_DONE;
    if (found.number == expected.number && memcmp(found.bytes, expected.bytes, sizeof found.bytes) == 0 &&
        found.count == expected.count && found.part.start == expected.part.start &&
        found.part.length == expected.part.length && memcmp(left, expected_left, length) == 0)
        return;
    printf("board: %s differs at call %lu: number %d, the call has %d\n", names[which], done, found.number, expected.number);
    exit(1);
}

/* A function that gives a number alone. */
static void compare_number(enum function which, uint8_t number, hk_answer expected, const void *left,
                           const void *expected_left, size_t length) {
    hk_answer found = expected;
    found.number = number;
    compare(which, found, expected, left, expected_left, length);
}

static hk_board lent(void) {
    hk_board board = {set, set_length, serial, serial_length, NULL, 0};
    return board;
}

/* Eight bytes, or NULL where the event's setup has another length. */
static const uint8_t *setup_of(const struct event *event) {
    return event->setup_length == HK_SETUP_LENGTH ? event->setup : NULL;
}

static void ask_one(const struct event *event) {
    hk_board board = lent();
    hk_answer expected = on_image((uint8_t *)&one.call, event);
    if (event->kind == HK_EVENT_SETUP)
        compare(ASK, hk_ask(&board, &one.function, setup_of(event)), expected, &one.function, &one.call, sizeof one.call);
    else
        compare_number(TELL, hk_tell(&board, &one.function, event->kind, event->value), expected, &one.function, &one.call,
                       sizeof one.call);
}

static void ask_two(const struct event *event) {
    hk_answer expected = no_answer();
    expected.number = hk_two_event(TWO_LENT, IMAGE(two.call), event->kind, event->value, event->setup, event->setup_length,
                                   INTO(expected));
    if (event->kind == HK_EVENT_SETUP)
        compare(TWO_ASK, hk_two_ask(&pair, &two.function, setup_of(event)), expected, &two.function, &two.call,
                sizeof two.call);
    else
        compare_number(TWO_TELL, hk_two_tell(&pair, &two.function, event->kind, event->value), expected, &two.function,
                       &two.call, sizeof two.call);
}

static void ask_port(const struct event *event, size_t port) {
    hk_board board = lent();
    hk_answer expected = no_answer();
    expected.number = hk_port_event(ONE_LENT, call_row, PORTS, port, event->kind, event->value, event->setup,
                                    event->setup_length, INTO(expected));
    if (event->kind == HK_EVENT_SETUP)
        compare(PORT_ASK, hk_port_ask(&board, function_row, PORTS, port, setup_of(event)), expected, function_row, call_row,
                sizeof call_row);
    else
        compare_number(PORT_TELL, hk_port_tell(&board, function_row, PORTS, port, event->kind, event->value), expected,
                       function_row, call_row, sizeof call_row);
}

static void ask_two_port(const struct event *event, size_t port) {
    hk_answer expected = no_answer();
    expected.number = hk_two_port_event(TWO_LENT, call_two_row, PORTS, port, event->kind, event->value, event->setup,
                                        event->setup_length, INTO(expected));
    if (event->kind == HK_EVENT_SETUP)
        compare(TWO_PORT_ASK, hk_two_port_ask(&pair, function_two_row, PORTS, port, setup_of(event)), expected,
                function_two_row, call_two_row, sizeof call_two_row);
    else
        compare_number(TWO_PORT_TELL, hk_two_port_tell(&pair, function_two_row, PORTS, port, event->kind, event->value),
                       expected, function_two_row, call_two_row, sizeof call_two_row);
}

static void ask_endpoints(void) {
    hk_board board = lent();
    uint8_t number = (uint8_t)below(8);
    hk_answer expected = no_answer();
    expected.number = hk_endpoint(ONE_LENT, IMAGE(one.call), number, &expected.part);
    compare(CURRENT_ENDPOINT, hk_current_endpoint(&board, &one.function, number), expected, &one.function, &one.call,
            sizeof one.call);
    expected.number = hk_two_endpoint(TWO_LENT, IMAGE(two.call), number, &expected.part);
    compare(TWO_CURRENT_ENDPOINT, hk_two_current_endpoint(&pair, &two.function, number), expected, &two.function, &two.call,
            sizeof two.call);
}

/* A reply of two bytes, or of a part of the set. */
static void cut_reply(void) {
    static const uint8_t sizes[] = {8, 16, 32, 64, 9};
    hk_answer answer = {HK_DONE, {1, 2}, (uint8_t)below(3), {set, set_length / 2}};
    hk_part reply = hk_reply(&answer);
    uint16_t asked = (uint16_t)below(300);
    uint32_t size = one_of(sizes, sizeof sizes), number = below(6);
    hk_answer expected = no_answer();
    const uint8_t *start = answer.count > 0 ? answer.bytes : set;
    expected.number = hk_packet(start, answer.count > 0 ? answer.count : set_length / 2, asked, size, number, &expected.part);
    compare(CUT, hk_cut(reply, asked, size, number), expected, &one.function, &one.call, sizeof one.call);
}

static const hk_order no_order = {255, {9, 9, 9, 9, 9, 9}, HK_NO_PART};

/* What the function gave, beside what the call gave, and both records that they left. */
static void compare_orders(enum function which, const hk_order *found, const hk_order *expected, const struct both_pipes *left) {
    hk_part sent = hk_sent(found);
    done++;
    reached[which] += found->number == HK_DONE && hk_order_of(found) == HK_ORDER_SEND;
    if (found->number == expected->number && memcmp(found->out, expected->out, sizeof found->out) == 0 &&
        found->part.start == expected->part.start && found->part.length == expected->part.length &&
        memcmp(&left->record.function, &left->record.call, sizeof left->record.call) == 0 &&
        memcmp(left->function.record, left->call, sizeof left->call) == 0 && hk_order_of(found) == expected->out[0] &&
        sent.start == (expected->out[1] > 0 ? found->out + 2 : expected->part.start) &&
        sent.length == (expected->out[1] > 0 ? expected->out[1] : expected->part.length) &&
        hk_room(found) == expected->out[4] + 256 * expected->out[5])
        return;
    printf("board: %s differs at call %lu: number %d, the call has %d\n", names[which], done, found->number, expected->number);
    exit(1);
}

/* The event's setup, mostly, or any other event of the pipe; the application has a reply of any length up to its own. */
static void step_pipes(const struct event *event) {
    hk_board board = lent();
    const uint8_t *asked = event->kind == HK_EVENT_SETUP ? setup_of(event) : NULL;
    uint8_t number = asked != NULL && below(2) == 0 ? HK_PIPE_SETUP : (uint8_t)below(HK_PIPE_REFUSE + 2);
    uint16_t value = (uint16_t)below(number == HK_PIPE_RESET ? 3 : 70);
    size_t length = number == HK_PIPE_SETUP && asked != NULL ? HK_SETUP_LENGTH : 0;
    hk_part reply = {own_reply, below(sizeof own_reply)};
    hk_order expected = no_order, found;
    if (number == HK_PIPE_REPLY)
        pipe_of_one.function.reply = pipe_of_two.function.reply = reply;
    asked = length == 0 ? NULL : asked;
    reply = pipe_of_one.function.reply;
    expected.number = hk_pipe_event(ONE_LENT, IMAGE(pipe_of_one.record.call), pipe_of_one.call, HK_PIPE_LENGTH, reply.start,
                                    reply.length, number, value, asked, length, expected.out, &expected.part);
    found = hk_step(&board, &pipe_of_one.record.function, &pipe_of_one.function, number, value, asked);
    compare_orders(STEP, &found, &expected, &pipe_of_one);
    expected = no_order;
    expected.number = hk_two_pipe_event(TWO_LENT, IMAGE(pipe_of_two.record.call), pipe_of_two.call, HK_PIPE_LENGTH, reply.start,
                                        reply.length, number, value, asked, length, expected.out, &expected.part);
    found = hk_two_step(&pair, &pipe_of_two.record.function, &pipe_of_two.function, number, value, asked);
    compare_orders(TWO_STEP, &found, &expected, &pipe_of_two);
}

/* Opens all anew: the ports too, each by its own record. */
static void start_all(void) {
    hk_board board = lent();
    hk_answer expected = no_answer();
    pair = titrator_pair_board;
    if (below(8) == 0)
        pair.high_length--;
    expected.number = hk_open(ONE_LENT, IMAGE(one.call));
    compare_number(START, hk_start(&board, &one.function), expected, &one.function, &one.call, sizeof one.call);
    expected.number = hk_two_open(TWO_LENT, IMAGE(two.call));
    compare_number(TWO_START, hk_two_start(&pair, &two.function), expected, &two.function, &two.call, sizeof two.call);
    memset(&pipe_of_one, 0, sizeof pipe_of_one);
    memset(&pipe_of_two, 0, sizeof pipe_of_two);
    pipe_of_one.record = one;
    pipe_of_two.record = two;
    for (size_t port = 0; port < PORTS; port++) {
        call_row[port] = function_row[port] = one.call;
        call_two_row[port] = function_two_row[port] = two.call;
    }
}

static void at_event(const struct event *event) {
    struct event to_speed = *event;
    if (done == 0 || below(256) == 0)
        start_all();
    ask_one(event);
    ask_port(event, below(PORTS + 1));
    if (event->kind == HK_EVENT_BUS_RESET)
        to_speed.value = (uint8_t)below(3);
    ask_two(&to_speed);
    ask_two_port(&to_speed, below(PORTS + 1));
    ask_endpoints();
    cut_reply();
    step_pipes(event);
}

int main(int argument_count, char **arguments) {
    unsigned long events = argument_count > 1 ? strtoul(arguments[1], NULL, 10) : 10000;
    int missing = 0;
    run_board(&bench_board, events);
    run_board(&titrator_board, events);
    for (int which = 0; which < FUNCTIONS; which++)
        if (reached[which] == 0) {
            printf("board: %s has NOT given HK_DONE\n", names[which]);
            missing = 1;
        }
    printf("board: %lu calls of %d functions, each as the call that it stands for\n", done, FUNCTIONS);
    return missing;
}
