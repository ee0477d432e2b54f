/* unwritten [EVENTS]: only bytes that differ are written. Each random event is done on an ordinary image and record first; then again on an image that lies
 * across the border of two pages, cut anywhere, of which each is read-only if none of its bytes is to become another: a write there ends the test. Where the event
 * changes nothing, both pages are read-only. The same again at a port and by hk_record_event, whose record lies across the border: it is aligned, so that it is cut
 * at every fourth byte, between its settings too. Of its halts and of its toggles, four bytes each, all four are written where one becomes another.
 *
 * The calls that change nothing must come up: GET_STATUS, refusals with 7, 8, 9, 16 and 19, a status end with nothing waiting, opening what is fresh already. */
#define _DEFAULT_SOURCE

#include <signal.h>
#include <sys/mman.h>
#include <unistd.h>

#include "random_events.h"

static unsigned long done, unchanged, numbers[256], readings, ends, openings;
static const char *call;
static uint8_t *pages;
static size_t page;

static void wrote(int signal) {
    static const char words[] = "unwritten: a byte that does not differ is WRITTEN, by ";
    ssize_t told = write(STDOUT_FILENO, words, sizeof words - 1);
    (void)signal;
    told += write(STDOUT_FILENO, call, strlen(call));
    told += write(STDOUT_FILENO, "\n", 1);
    _exit(told < 0 ? 2 : 1);
}

static void protect(size_t number, int differs) {
    if (mprotect(pages + number * page, page, differs ? PROT_READ | PROT_WRITE : PROT_READ) != 0)
        exit(2);
}

/* The copy, `cut` bytes before the border; its pages are read-only but where bytes differ from `before` to `after`. */
static uint8_t *lay(const uint8_t *before, const uint8_t *after, uint32_t cut) {
    uint8_t *copy = pages + page - cut;
    protect(0, 1);
    protect(1, 1);
    memcpy(copy, before, HK_IMAGE_LENGTH);
    protect(0, memcmp(before, after, cut) != 0);
    protect(1, memcmp(before + cut, after + cut, HK_IMAGE_LENGTH - cut) != 0);
    return copy;
}

static void agree(const char *what, const hk_answer *expected, const hk_answer *answer, const uint8_t *left, const uint8_t *after) {
    if (expected->number == answer->number && expected->count == answer->count && expected->part.start == answer->part.start &&
        memcmp(left, after, HK_IMAGE_LENGTH) == 0)
        return;
    printf("unwritten: %s differs at event %lu\n", what, done);
    exit(1);
}

/* A row of one record. */
static hk_answer at_port(hk_record *row, const struct event *event) {
    hk_answer answer = {255, {0xA5, 0xA5}, 0xA5, {event->setup, 3}};
    answer.number = hk_port_event(set, set_length, serial, serial_length, row, 1, 0, event->kind, event->value,
                                  event->setup_length == 0 ? NULL : event->setup, event->setup_length, answer.bytes, &answer.count, &answer.part);
    return answer;
}

static void count(const struct event *event, const hk_answer *answer) {
    unchanged++;
    numbers[answer->number]++;
    readings += answer->number == HK_DONE && event->kind == HK_EVENT_SETUP && event->setup[1] == 0;
    ends += answer->number == HK_DONE && event->kind == HK_EVENT_STATUS_END;
}

static void at_event(const struct event *event) {
    uint8_t before[HK_IMAGE_LENGTH], *copy;
    hk_answer expected, answer;
    memcpy(before, image, sizeof before);
    expected = on_image(image, event);
    on_record(&record, event);
    done++;
    call = "a call on an image";
    copy = lay(before, image, below(HK_IMAGE_LENGTH + 1));
    answer = on_image(copy, event);
    agree("an image", &expected, &answer, copy, image);
    call = "hk_port_event";
    copy = lay(before, image, 4 * below(HK_IMAGE_LENGTH / 4 + 1)); /* the record's alignment is 4 */
    answer = at_port((hk_record *)copy, event);
    agree("a port's record", &expected, &answer, copy, image);
    call = "hk_record_event";
    copy = lay(before, image, 4 * below(HK_IMAGE_LENGTH / 4 + 1));
    answer = on_record((hk_record *)copy, event);
    agree("a record", &expected, &answer, copy, image);
    if (memcmp(before, image, sizeof before) == 0)
        count(event, &expected);
}

/* Opening makes a fresh record of any image: where one is fresh already, nothing is written. */
static void open_read_only(const hk_board *board) {
    uint8_t fresh[HK_IMAGE_LENGTH], changed[HK_IMAGE_LENGTH];
    hk_open(board->set, board->set_length, board->serial, board->serial_length, fresh, sizeof fresh);
    call = "hk_open";
    for (uint32_t cut = 0; cut <= HK_IMAGE_LENGTH; cut++, openings++) {
        memcpy(changed, fresh, sizeof fresh);
        if (below(2))
            changed[below(sizeof changed)] ^= 1;
        hk_open(board->set, board->set_length, board->serial, board->serial_length, lay(changed, fresh, cut), HK_IMAGE_LENGTH);
    }
}

int main(int argument_count, char **arguments) {
    static const uint8_t expected[] = {HK_DONE, 7, 8, 9, 16, 19};
    unsigned long events = argument_count > 1 ? strtoul(arguments[1], NULL, 10) : 20000;
    int missing = 0;
    page = (size_t)sysconf(_SC_PAGESIZE);
    pages = mmap(NULL, 2 * page, PROT_READ | PROT_WRITE, MAP_PRIVATE | MAP_ANONYMOUS, -1, 0);
    if (pages == MAP_FAILED || signal(SIGSEGV, wrote) == SIG_ERR)
        return 2;
    open_read_only(&bench_board);
    run_board(&bench_board, events);
    run_board(&titrator_board, events);
    for (size_t at = 0; at < sizeof expected; at++) {
        printf("  number %2d: %lu events that change nothing\n", expected[at], numbers[expected[at]]);
        missing |= numbers[expected[at]] == 0;
    }
    printf("  GET_STATUS: %lu; status ends: %lu; openings: %lu\n", readings, ends, openings);
    if (missing || readings == 0 || ends == 0)
        printf("unwritten: a call that changes nothing is NOT reached\n");
    printf("unwritten: %lu events, %lu of them change nothing; no byte that does not differ is written\n", done, unchanged);
    return missing || readings == 0 || ends == 0;
}
