#include "words.h"

#include <stdio.h>

#include "heideklonk.h"

#define BYTES_IN_LINE 18

/* bits 4 to 0 of bmRequestType */
enum recipient { DEVICE, INTERFACE, ENDPOINT };

static const char *const requests[] = {
    [GET_STATUS] = "GET_STATUS",
    [CLEAR_FEATURE] = "CLEAR_FEATURE",
    [SET_FEATURE] = "SET_FEATURE",
    [SET_ADDRESS] = "SET_ADDRESS",
    [GET_DESCRIPTOR] = "GET_DESCRIPTOR",
    [SET_DESCRIPTOR] = "SET_DESCRIPTOR",
    [GET_CONFIGURATION] = "GET_CONFIGURATION",
    [SET_CONFIGURATION] = "SET_CONFIGURATION",
    [GET_INTERFACE] = "GET_INTERFACE",
    [SET_INTERFACE] = "SET_INTERFACE",
    [SYNCH_FRAME] = "SYNCH_FRAME",
};

static const char *const descriptor_types[] = {
    NULL, "device", "configuration", "string", "interface", "endpoint", "device_qualifier", "other_speed_configuration",
};

static const char *const transfer_types[] = {"control", "isochronous", "bulk", "interrupt"};

static const char *const states[] = {"Default", "Address", "Configured"};

static const char *const numbers[] = {
    "done",
    "frame",
    "contents",
    "device",
    "configurations",
    "strings",
    "serial block",
    "set or serial block not acceptable",
    "record does not fit",
    "setup is not 8 bytes",
    "request not in the table",
    "not allowed in this state",
    "wrong wValue, wIndex or wLength",
    "does not exist",
    "feature not there for this recipient",
    "no such packet",
    "unfit endpoint or power source",
    [HK_TEST_MODE_ENTERED] = "a test mode is entered",
    [HK_NO_SUCH_PORT] = "no such port",
    [HK_WAKE_NOT_ALLOWED] = "wake not allowed",
    [HK_PAIR_BROKEN] = "the two sets do not go together",
};

/* What to look for, by the group of rules that opening found broken first. */
static const char *const hints[] = {
    NULL,
    "Look at the set's first 4 bytes. Bytes 0 and 1 are the total length, low byte first, and equal the file's length, which\n"
    "is at most 16,384. Byte 2 counts the entries, 1 to 64. Byte 3 is zero. The contents, 8 bytes an entry, end in the set.",
    "Look at the contents, 8 bytes an entry: type, index, language, offset, length. Types are 1, 2 and 3. Entries ascend by\n"
    "type, then language, then index, and none stands twice. The first body starts right after the contents, each next where\n"
    "the last ended, and the last ends at the total length: offsets and lengths often go wrong when a body is changed.",
    "Look at the device descriptor. It is the one entry of type 1, with index and language 0 and 18 bytes: 12 01 first,\n"
    "bMaxPacketSize0 (byte 7) 8, 16, 32 or 64, subclass 0 if the class is 0, and bNumConfigurations (byte 17) 1 to 8, as\n"
    "many as there are entries of type 2.",
    "Look at the configurations. wTotalLength is the body's whole length; each bLength leads to the next descriptor, and the\n"
    "last ends at the end. bmAttributes has bit 7 and none of bits 4 to 0, bMaxPower is at most 250, values differ and are\n"
    "not 0. Interfaces and alternates count up from 0 without a gap; bNumInterfaces and bNumEndpoints count what is there.\n"
    "Endpoints have numbers 1 to 15; bulk 8, 16, 32 or 64 bytes, interrupt up to 64 and bInterval not 0, isochronous up to\n"
    "1,023 and bInterval 1 to 16. No address stands twice in a setting, or in two interfaces.",
    "Look at the strings. Each starts with its own even length, at most 254, and 03. String 0 (language 0) lists one to four\n"
    "languages, ascending, and is there if there is any string or any reference. Each string that a descriptor names\n"
    "(iManufacturer, iProduct, iConfiguration, iInterface) is there in every listed language, and no other language is used.\n"
    "No string has the serial number's index: that one comes from the serial block.",
    "Look at the serial block. If iSerialNumber (byte 16 of the device descriptor) is 0, it is empty. Otherwise it is a\n"
    "string: its own even length, 4 to 254, then 03, then the characters, two bytes each.",
};

unsigned two_bytes(const uint8_t *bytes) {
    return bytes[0] | (unsigned)bytes[1] << 8;
}

size_t next_descriptor(const uint8_t *body, size_t length, size_t at) {
    return body[at] < 2 || body[at] > length - at ? length : at + body[at];
}

const char *number_in_words(uint8_t number) {
    const char *words = number < sizeof numbers / sizeof *numbers ? numbers[number] : NULL;
    return words != NULL ? words : "not a number of the library";
}

void print_refusal(uint8_t number) {
    printf("refused with %u: %s\n", number, number_in_words(number));
    if (number >= HK_FRAME_BROKEN && number <= HK_SERIAL_BROKEN)
        printf("%s\ndocs/MAKERS.md has each rule of number %u, with examples.\n", hints[number], number);
    if (number == HK_PAIR_BROKEN)
        printf("Look at types 6 and 7 of each set: one device_qualifier, made of the other set's device descriptor, and for each\n"
               "configuration of the other set the same bytes with 07 for the type. docs/MAKERS.md has each cause.\n");
}

void print_bytes(const uint8_t *bytes, size_t length) {
    for (size_t at = 0; at < length; at++)
        printf("%s%02X", at == 0 ? "" : " ", bytes[at]);
}

/* The name of a descriptor type, or its number. */
static void print_type(unsigned type) {
    if (type > 0 && type < sizeof descriptor_types / sizeof *descriptor_types)
        printf("%s", descriptor_types[type]);
    else
        printf("type %02X", type);
}

static void print_recipient(enum recipient recipient, unsigned index) {
    if (recipient == DEVICE)
        printf(" device");
    else if (recipient == INTERFACE)
        printf(" interface %u", index);
    else
        printf(" endpoint %02X", index);
}

static void print_descriptor_asked(const uint8_t *setup) {
    unsigned type = setup[3];
    putchar(' ');
    print_type(type);
    if (type == TYPE_CONFIGURATION || type == TYPE_OTHER_SPEED_CONFIGURATION)
        printf(" index %u", setup[2]);
    if (type == TYPE_STRING)
        printf(" %u, language %04X", setup[2], two_bytes(setup + 4));
    printf(", %u bytes asked", two_bytes(setup + 6));
}

static void print_feature(const uint8_t *setup) {
    enum recipient recipient = (enum recipient)(setup[0] & 31);
    unsigned selector = two_bytes(setup + 2);
    if (recipient == DEVICE && selector == TEST_MODE) {
        printf(" test mode %u,", setup[5]);
        print_recipient(recipient, 0);
        return;
    }
    if (recipient == DEVICE && selector == DEVICE_REMOTE_WAKEUP)
        printf(" remote wakeup,");
    else if (recipient == ENDPOINT && selector == ENDPOINT_HALT)
        printf(" halt,");
    else
        printf(" %u,", selector);
    print_recipient(recipient, two_bytes(setup + 4));
}

/* What stands behind the request's name. */
static void print_fields(const uint8_t *setup) {
    switch (setup[1]) {
    case GET_STATUS:
        print_recipient((enum recipient)(setup[0] & 31), two_bytes(setup + 4));
        break;
    case CLEAR_FEATURE: case SET_FEATURE:
        print_feature(setup);
        break;
    case SET_ADDRESS: case SET_CONFIGURATION:
        printf(" %u", two_bytes(setup + 2));
        break;
    case GET_DESCRIPTOR:
        print_descriptor_asked(setup);
        break;
    case GET_INTERFACE:
        print_recipient(INTERFACE, two_bytes(setup + 4));
        break;
    case SET_INTERFACE:
        print_recipient(INTERFACE, two_bytes(setup + 4));
        printf(", alternate %u", two_bytes(setup + 2));
        break;
    }
}

/* The name of a serial port's request, if it is one. */
static const char *serial_request(const uint8_t *setup) {
    if (setup[0] == 0xA1)
        return setup[1] == GET_LINE_CODING ? "GET_LINE_CODING" : NULL;
    if (setup[0] != 0x21)
        return NULL;
    return setup[1] == SET_LINE_CODING          ? "SET_LINE_CODING"
           : setup[1] == SET_CONTROL_LINE_STATE ? "SET_CONTROL_LINE_STATE"
                                                : NULL;
}

void print_setup(const uint8_t *setup) {
    const char *name = setup[1] < sizeof requests / sizeof *requests ? requests[setup[1]] : NULL;
    if (serial_request(setup) != NULL) {
        printf("%s", serial_request(setup));
        print_recipient(INTERFACE, two_bytes(setup + 4));
    } else if (setup[0] & 0x60 || name == NULL) {
        const char *whose = setup[0] & 0x40 ? "vendor" : setup[0] & 0x20 ? "class" : "later standard";
        printf("request %02X of a %s", setup[1], whose);
    } else {
        printf("%s", name);
        print_fields(setup);
    }
    printf(" (");
    print_bytes(setup, HK_SETUP_LENGTH);
    printf(")");
}

/* The endpoints whose bit is set: bit e is OUT number e, bit 16 + e is IN. */
static void print_endpoints(const char *label, const uint8_t *bits) {
    int any = 0;
    for (unsigned bit = 0; bit < 32; bit++) {
        if (!(bits[bit / 8] >> bit % 8 & 1))
            continue;
        printf("%s %02X", any ? "" : label, bit < 16 ? bit : bit - 16 + 0x80);
        any = 1;
    }
}

void print_record(const uint8_t *record) {
    printf("%s, address %u", record[0] < 3 ? states[record[0]] : "no state", record[1]);
    if (record[2] > 127 && record[2] != 255)
        printf(", test mode %u waits", record[2] - 128u);
    else if (record[2] != 255)
        printf(", address %u waits", record[2]);
    if (record[3] != 0)
        printf(", configuration %u", record[3]);
    if (record[4] != 0)
        printf(", remote wakeup on");
    if (record[5] != 0)
        printf(", own supply");
    if (record[6] != 0)
        printf(", suspended");
    if (record[7] != 0)
        printf(", high speed");
    if (record[7] > 1)
        printf(", test mode %u", record[7] / 16u);
    for (int interface = 0; interface < 16; interface++)
        if (record[8 + interface] != 0)
            printf(", interface %d at alternate %u", interface, record[8 + interface]);
    print_endpoints(", halted", record + 24);
    print_endpoints(", toggle 1 at", record + 28);
}

/* One character of 16 bits; control characters, and the halves of a pair that a longer one takes, as question marks. */
static void print_character(unsigned character) {
    if (character < 0x20 || (character >= 0x7F && character < 0xA0) || (character >= 0xD800 && character < 0xE000)) {
        putchar('?');
    } else if (character < 0x80) {
        putchar((int)character);
    } else if (character < 0x800) {
        printf("%c%c", 0xC0 | character >> 6, 0x80 | (character & 63));
    } else {
        printf("%c%c%c", 0xE0 | character >> 12, 0x80 | (character >> 6 & 63), 0x80 | (character & 63));
    }
}

static void print_text(const uint8_t *string, size_t length) {
    putchar('"');
    for (size_t at = 2; at + 1 < length; at += 2)
        print_character(two_bytes(string + at));
    putchar('"');
}

static void print_languages(const uint8_t *string, size_t length) {
    printf("languages");
    for (size_t at = 2; at + 1 < length; at += 2)
        printf(" %04X", two_bytes(string + at));
}

const char *transfer_type(const uint8_t *descriptor) {
    return transfer_types[descriptor[3] & 3];
}

/* What a descriptor is, as far as its length lets tell. */
static void print_meaning(const uint8_t *descriptor, size_t length) {
    unsigned type = length < 2 ? 0 : descriptor[1];
    print_type(type);
    if ((type == TYPE_CONFIGURATION || type == TYPE_OTHER_SPEED_CONFIGURATION) && length >= 6)
        printf(" %u", descriptor[5]);
    if (type == TYPE_INTERFACE && length >= 4)
        printf(" %u, alternate %u", descriptor[2], descriptor[3]);
    if (type == TYPE_ENDPOINT && length >= 6)
        printf(" %02X, %s, %u bytes", descriptor[2], transfer_type(descriptor), two_bytes(descriptor + 4));
}

static void print_lines(const uint8_t *bytes, size_t length) {
    for (size_t at = 0; at < length; at += BYTES_IN_LINE) {
        printf("%s     ", at == 0 ? "" : "\n");
        print_bytes(bytes + at, length - at < BYTES_IN_LINE ? length - at : BYTES_IN_LINE);
    }
    printf("  ");
}

static void print_string(unsigned index, const uint8_t *bytes, size_t length) {
    print_lines(bytes, length);
    if (index == 0)
        print_languages(bytes, length);
    else
        print_text(bytes, length);
    putchar('\n');
}

/* Cut by bLength; the last may be cut off by the length that was asked. */
static void print_cut(const uint8_t *bytes, size_t length) {
    for (size_t at = 0, next; at < length; at = next) {
        next = next_descriptor(bytes, length, at);
        print_lines(bytes + at, next - at);
        print_meaning(bytes + at, next - at);
        putchar('\n');
    }
}

void print_descriptors(const uint8_t *setup, const uint8_t *bytes, size_t length) {
    if (setup[3] == TYPE_STRING)
        print_string(setup[2], bytes, length);
    else
        print_cut(bytes, length);
}
