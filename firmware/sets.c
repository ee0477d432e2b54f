#include "sets.h"

/* A number of two bytes, the low one first. */
#define TWO(number) (number) & 0xFF, (number) >> 8

/* ---- A titrator. Its descriptors stand here once: a board with a high-speed peripheral gives them at both speeds. */
#define GERMAN 0x0407
#define ENGLISH 0x0409

/* Endpoints at full speed, and at high speed: bulk has 512 bytes there, and an interval counts as 2 to the power of
 * bInterval - 1, in eighths of a millisecond. */
#define FULL_BULK(address) 7, 5, address, 2, TWO(64), 0
#define FULL_INTERRUPT(address, size, full_interval, high_interval) 7, 5, address, 3, TWO(size), full_interval
#define FULL_ISOCHRONOUS(address, size, full_interval, high_interval) 7, 5, address, 5, TWO(size), full_interval
#define HIGH_BULK(address) 7, 5, address, 2, TWO(512), 0
#define HIGH_INTERRUPT(address, size, full_interval, high_interval) 7, 5, address, 3, TWO(size), high_interval
#define HIGH_ISOCHRONOUS(address, size, full_interval, high_interval) 7, 5, address, 5, TWO(size), high_interval

#define TITRATOR_DEVICE                                                                                                \
    /* device: USB 2.00, class EF 02 01 (interfaces may belong together), bMaxPacketSize0 64, 1209:0001, release 1.00; \
     * string 1 manufacturer, 2 product, 3 serial number; one configuration */                                         \
    18, 1, TWO(0x0200), 0xEF, 2, 1, 64, TWO(0x1209), TWO(0x0001), TWO(0x0100), 1, 2, 3, 1,

/* The type is 2 for a configuration, and 7 where it is the other speed's. */
#define TITRATOR_CONFIGURATION(type, BULK, INTERRUPT, ISOCHRONOUS)                                                               \
    /* configuration 2 (its value; its index is 0): 165 bytes, four interfaces, self-powered, remote wakeup, 100 mA */           \
    9, type, TWO(165), 4, 2, 0, 0xE0, 50,                                                                                        \
    /* interface 0, alternate 0: the burette takes commands and answers */                                                       \
    9, 4, 0, 0, 2, 0xFF, 0, 0, 0,                                                                                                \
    BULK(0x81), /* bulk IN */                                                                                                    \
    BULK(0x01), /* bulk OUT */                                                                                                   \
    /* interface 0, alternate 1: the same, and it tells when the titration is over */                                            \
    9, 4, 0, 1, 3, 0xFF, 0, 0, 0,                                                                                                \
    BULK(0x81), /* bulk IN */                                                                                                    \
    BULK(0x01), /* bulk OUT */                                                                                                   \
    INTERRUPT(0x82, 8, 10, 7), /* interrupt IN, 10 ms or a little less */                                                        \
    /* interface 1, alternate 0: the electrode, silent and without a share of the bus */                                         \
    9, 4, 1, 0, 0, 0xFF, 1, 0, 0,                                                                                                \
    5, 0x24, 1, TWO(192), /* a descriptor of the maker's class, which the library steps over */                                  \
    /* interface 1, alternate 1: the electrode's readings as they come */                                                        \
    9, 4, 1, 1, 2, 0xFF, 1, 0, 0,                                                                                                \
    ISOCHRONOUS(0x83, 192, 1, 4), /* isochronous IN, asynchronous, every ms */                                                   \
    INTERRUPT(0x84, 16, 100, 10), /* interrupt IN: out of range */                                                               \
    /* interfaces 2 and 3 are one serial port (CDC ACM), for the readings as text; the library steps over what the class adds */ \
    8, 0x0B, 2, 2, 2, 2, 0, 0, /* interface association: two interfaces from 2 on, class 02 02 00 */                             \
    /* interface 2, alternate 0: communication */                                                                                \
    9, 4, 2, 0, 1, 2, 2, 0, 0,                                                                                                   \
    5, 0x24, 0, TWO(0x0110), /* header: CDC 1.10 */                                                                              \
    5, 0x24, 1, 0, 3, /* call management: none; data on interface 3 */                                                           \
    4, 0x24, 2, 2, /* abstract control: line coding and line state */                                                            \
    5, 0x24, 6, 2, 3, /* union: 2 controls 3 */                                                                                  \
    INTERRUPT(0x85, 16, 32, 9), /* interrupt IN: notifications */                                                                \
    /* interface 3, alternate 0: data */                                                                                         \
    9, 4, 3, 0, 2, 0x0A, 0, 0, 0,                                                                                                \
    BULK(0x86), /* bulk IN */                                                                                                    \
    BULK(0x02), /* bulk OUT */

#define TITRATOR_AT_FULL_SPEED(type) TITRATOR_CONFIGURATION(type, FULL_BULK, FULL_INTERRUPT, FULL_ISOCHRONOUS)
#define TITRATOR_AT_HIGH_SPEED(type) TITRATOR_CONFIGURATION(type, HIGH_BULK, HIGH_INTERRUPT, HIGH_ISOCHRONOUS)

#define TITRATOR_STRINGS                                                     \
    /* string 0: the languages */                                            \
    6, 3, TWO(GERMAN), TWO(ENGLISH),                                         \
    /* manufacturer, German */                                               \
    44, 3,                                                                   \
    'H', 0, 'e', 0, 'i', 0, 'd', 0, 'e', 0, 'k', 0, 'l', 0, 'o', 0,          \
    'n', 0, 'k', 0, ' ', 0, 'M', 0, 'e', 0, 's', 0, 's', 0, 'g', 0,          \
    'e', 0, 'r', 0, 0xE4, 0, 't', 0, 'e', 0,                                 \
    /* product, German: 64 bytes, a whole packet, so an empty one ends it */ \
    64, 3,                                                                   \
    'H', 0, 'e', 0, 'i', 0, 'd', 0, 'e', 0, 'k', 0, 'l', 0, 'o', 0,          \
    'n', 0, 'k', 0, ' ', 0, 'T', 0, 'i', 0, 't', 0, 'r', 0, 'a', 0,          \
    't', 0, 'o', 0, 'r', 0, ' ', 0, 'm', 0, 'i', 0, 't', 0, ' ', 0,          \
    'B', 0, 0xFC, 0, 'r', 0, 'e', 0, 't', 0, 't', 0, 'e', 0,                 \
    /* manufacturer, English */                                              \
    46, 3,                                                                   \
    'H', 0, 'e', 0, 'i', 0, 'd', 0, 'e', 0, 'k', 0, 'l', 0, 'o', 0,          \
    'n', 0, 'k', 0, ' ', 0, 'I', 0, 'n', 0, 's', 0, 't', 0, 'r', 0,          \
    'u', 0, 'm', 0, 'e', 0, 'n', 0, 't', 0, 's', 0,                          \
    /* product, English */                                                   \
    66, 3,                                                                   \
    'H', 0, 'e', 0, 'i', 0, 'd', 0, 'e', 0, 'k', 0, 'l', 0, 'o', 0,          \
    'n', 0, 'k', 0, ' ', 0, 't', 0, 'i', 0, 't', 0, 'r', 0, 'a', 0,          \
    't', 0, 'o', 0, 'r', 0, ' ', 0, 'w', 0, 'i', 0, 't', 0, 'h', 0,          \
    ' ', 0, 'b', 0, 'u', 0, 'r', 0, 'e', 0, 't', 0, 't', 0, 'e', 0,

static const uint8_t titrator_serial[] = {
    20, 3,
    'H', 0, 'K', 0, '-', 0, '0', 0, '0', 0, '0', 0, '1', 0, '2', 0, '3', 0,
};

static const uint8_t bench_set[] = {
    TWO(63), 2, 0, /* total length, entries */

    /* contents: type, index, language, offset, length */
    1, 0, TWO(0), TWO(20), TWO(18),
    2, 0, TWO(0), TWO(38), TWO(25),

    /* device: USB 2.00, class FF, bMaxPacketSize0 8, 1234:5678, release 1.00, no strings, one configuration */
    18, 1, TWO(0x0200), 0xFF, 0, 0, 8, TWO(0x1234), TWO(0x5678), TWO(0x0100), 0, 0, 0, 1,

    /* configuration 1: 25 bytes, one interface, bus-powered, 100 mA */
    9, 2, TWO(25), 1, 1, 0, 0x80, 50,
    /* interface 0, alternate 0: one endpoint */
    9, 4, 0, 0, 1, 0xFF, 0, 0, 0,
    /* endpoint 81: interrupt, 8 bytes, every 10 ms */
    7, 5, 0x81, 3, TWO(8), 10,
};

const hk_board bench_board = {bench_set, sizeof bench_set, NULL, 0, NULL, 0};

static const uint8_t titrator_set[] = {
    TWO(469), 7, 0, /* total length, entries */

    /* contents: type, index, language, offset, length; ascending by type, then language, then index */
    1, 0, TWO(0), TWO(60), TWO(18), /* device */
    2, 0, TWO(0), TWO(78), TWO(165), /* configuration 2 */
    3, 0, TWO(0), TWO(243), TWO(6), /* languages */
    3, 1, TWO(GERMAN), TWO(249), TWO(44), /* manufacturer */
    3, 2, TWO(GERMAN), TWO(293), TWO(64), /* product */
    3, 1, TWO(ENGLISH), TWO(357), TWO(46), /* manufacturer */
    3, 2, TWO(ENGLISH), TWO(403), TWO(66), /* product */

    TITRATOR_DEVICE
    TITRATOR_AT_FULL_SPEED(2)
    TITRATOR_STRINGS
};

const hk_board titrator_board = {titrator_set, sizeof titrator_set, titrator_serial, sizeof titrator_serial, NULL, 0};

static const uint8_t second_titrator_serial[] = {
    20, 3,
    'H', 0, 'K', 0, '-', 0, '0', 0, '0', 0, '0', 0, '1', 0, '2', 0, '4', 0,
};

const hk_board second_titrator_board = {titrator_set, sizeof titrator_set, second_titrator_serial,
                                        sizeof second_titrator_serial, NULL, 0};

/* Both sets of the pair have the same contents: types 6 and 7 stand behind the strings. */
#define TITRATOR_PAIR_CONTENTS \
    TWO(660), 9, 0, /* total length, entries */ \
    1, 0, TWO(0), TWO(76), TWO(18), /* device */ \
    2, 0, TWO(0), TWO(94), TWO(165), /* configuration 2 */ \
    3, 0, TWO(0), TWO(259), TWO(6), /* languages */ \
    3, 1, TWO(GERMAN), TWO(265), TWO(44), /* manufacturer */ \
    3, 2, TWO(GERMAN), TWO(309), TWO(64), /* product */ \
    3, 1, TWO(ENGLISH), TWO(373), TWO(46), /* manufacturer */ \
    3, 2, TWO(ENGLISH), TWO(419), TWO(66), /* product */ \
    6, 0, TWO(0), TWO(485), TWO(10), /* what the device is at the other speed */ \
    7, 0, TWO(0), TWO(495), TWO(165), /* configuration 2 at the other speed */

/* Bytes 2 to 7 and 17 of the other speed's device descriptor, which are those of this one, and 0. */
#define TITRATOR_QUALIFIER 10, 6, TWO(0x0200), 0xEF, 2, 1, 64, 1, 0,

static const uint8_t titrator_full_set[] = {
    TITRATOR_PAIR_CONTENTS
    TITRATOR_DEVICE
    TITRATOR_AT_FULL_SPEED(2)
    TITRATOR_STRINGS
    TITRATOR_QUALIFIER
    TITRATOR_AT_HIGH_SPEED(7)
};

static const uint8_t titrator_high_set[] = {
    TITRATOR_PAIR_CONTENTS
    TITRATOR_DEVICE
    TITRATOR_AT_HIGH_SPEED(2)
    TITRATOR_STRINGS
    TITRATOR_QUALIFIER
    TITRATOR_AT_FULL_SPEED(7)
};

const hk_board titrator_pair_board = {titrator_full_set, sizeof titrator_full_set, titrator_serial,
                                      sizeof titrator_serial, titrator_high_set, sizeof titrator_high_set};
