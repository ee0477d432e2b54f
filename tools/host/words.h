/* The transcript's words: setups, answers, records and numbers as a person reads them. */
#ifndef WORDS_H
#define WORDS_H

#include <stddef.h>
#include <stdint.h>

enum request {
    GET_STATUS,
    CLEAR_FEATURE,
    SET_FEATURE = 3,
    SET_ADDRESS = 5,
    GET_DESCRIPTOR,
    SET_DESCRIPTOR,
    GET_CONFIGURATION,
    SET_CONFIGURATION,
    GET_INTERFACE,
    SET_INTERFACE,
    SYNCH_FRAME
};

/* requests of a serial port (CDC), request type 21 or A1 */
#define SET_LINE_CODING 0x20
#define GET_LINE_CODING 0x21
#define SET_CONTROL_LINE_STATE 0x22

/* feature selectors */
#define ENDPOINT_HALT 0
#define DEVICE_REMOTE_WAKEUP 1
#define TEST_MODE 2

#define TYPE_DEVICE 1
#define TYPE_CONFIGURATION 2
#define TYPE_STRING 3
#define TYPE_INTERFACE 4
#define TYPE_ENDPOINT 5
#define TYPE_DEVICE_QUALIFIER 6
#define TYPE_OTHER_SPEED_CONFIGURATION 7

/* A number of two bytes, the low one first. */
unsigned two_bytes(const uint8_t *bytes);

/* Where the descriptor after the one at `at` starts; the end, if bLength does not lead there. */
size_t next_descriptor(const uint8_t *body, size_t length, size_t at);

/* Prints no line end. */
void print_setup(const uint8_t *setup);
void print_bytes(const uint8_t *bytes, size_t length);
void print_record(const uint8_t *record);

/* Prints whole lines: each descriptor of the answer to GET_DESCRIPTOR, and what it is. */
void print_descriptors(const uint8_t *setup, const uint8_t *bytes, size_t length);

/* Prints whole lines: why a set was refused, and what its maker should look for. */
void print_refusal(uint8_t number);

const char *number_in_words(uint8_t number);

/* Of an endpoint, by its descriptor. */
const char *transfer_type(const uint8_t *descriptor);

#endif
