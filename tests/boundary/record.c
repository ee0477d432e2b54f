/* record [EVENTS]: the same events on an image, by the call for each, and on a record where it stands, by hk_record_event.
 *
 * After each event the number, the bytes, the count, the part and all 32 bytes of the record must agree. Every number of an
 * event must come up. */
#include "random_events.h"

static unsigned long done, numbers[256];

static void print_answer(const char *where, const hk_answer *answer) {
    printf("  %s: number %d, bytes %02x %02x, count %d, part %p of %zu\n", where, answer->number, answer->bytes[0],
           answer->bytes[1], answer->count, (const void *)answer->part.start, answer->part.length);
}

static void at_event(const struct event *event) {
    hk_answer expected = on_image(image, event), answer = on_record(&record, event);
    int agree = expected.number == answer.number && memcmp(expected.bytes, answer.bytes, sizeof answer.bytes) == 0 &&
                expected.count == answer.count && expected.part.start == answer.part.start &&
                expected.part.length == answer.part.length && memcmp(image, &record, sizeof image) == 0;
    done++;
    numbers[answer.number]++;
    if (agree)
        return;
    printf("record: event %lu differs: kind %d, value %02x, setup of %zu bytes, %02x %02x ..\n", done, event->kind,
           event->value, event->setup_length, event->setup[0], event->setup[1]);
    print_answer("on the image", &expected);
    print_answer("on the record", &answer);
    exit(1);
}

int main(int argument_count, char **arguments) {
    static const uint8_t expected[] = {0, 7, 8, 9, 10, 11, 12, 13, 14, 16, 19};
    unsigned long events = argument_count > 1 ? strtoul(arguments[1], NULL, 10) : 100000;
    int missing = 0;
    run_board(&bench_board, events);
    run_board(&titrator_board, events);
    for (size_t at = 0; at < sizeof expected; at++) {
        printf("  number %2d: %lu events\n", expected[at], numbers[expected[at]]);
        if (numbers[expected[at]] == 0) {
            printf("record: number %d is NOT reached\n", expected[at]);
            missing = 1;
        }
    }
    printf("record: %lu events, the same on image and record\n", done);
    return missing;
}
