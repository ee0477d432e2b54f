/* Heideklonk: a USB 2.0 chapter 9 device library ("control pipe") for full and high speed, called from C or C++.
 *
 * The firmware keeps three blocks of bytes and lends them to each call:
 *
 *   set     the descriptor set, at most 16,384 bytes: contents first, then bodies. Only read.
 *   serial  the serial block: this unit's serial number as a string descriptor, or empty. Only read.
 *   image   the device record, HK_IMAGE_LENGTH bytes. Changed where it stands, by these calls alone.
 *
 * A board for high speed lends two sets in place of one, full and high, one for each speed, to the calls hk_two_..; byte 7
 * of its image says which is in use. An image is that of one kind of board for good: hk_open and hk_two_open make it so.
 *
 * The library keeps nothing between calls and allocates nothing. Every call checks the set, the serial block and the
 * image anew, whatever their lengths, and answers with a number: HK_DONE, or why it refused. The set and the serial block
 * are meant to stay as they are: an image fits one set, and after a change of the set only opening makes it fit again.
 *
 * What the caller owes, for every call:
 *   - A pointer and its length name memory that stays readable for the whole call, and writable where it is not const.
 *   - What a pointer that is not const points to (image, record, row, pipe, bytes, count, out, part, packet, descriptor; of
 *     a maker's call also buffer, written, total, block, rule, place and hk_trim's set) overlaps nothing else that is
 *     passed. What is only read may overlap other such memory.
 *   - A pointer whose length is 0 may be NULL. A set (or reply) of NULL and 0 leaves a part whose start is NULL and whose
 *     length is 0, and that is a valid part. This is tested and not proved.
 *   - A hk_part holds a valid value at the call: HK_NO_PART, or what an earlier call left there.
 *   - A part points into a set, the serial block or the reply that was lent. It is no copy: it lasts as long as they do.
 *   - One image is lent to one call at a time.
 */
#ifndef HEIDEKLONK_H
#define HEIDEKLONK_H

#include <stddef.h>
#include <stdint.h>

#ifdef __cplusplus
extern "C" {
#endif

#define HK_IMAGE_LENGTH 32
#define HK_SETUP_LENGTH 8

/* The release. hk_version() gives 65,536 times the first number, 256 times the second, and the third. */
#define HK_VERSION_MAJOR 1
#define HK_VERSION_MINOR 0
#define HK_VERSION_PATCH 0
#define HK_VERSION "1.0.0"
#define hk_version hk_version_1_0_0

/* The release that the archive is of. Its name has the version in it, so that an archive of another release does not link
 * with this header: the linker then finds no hk_version_1_0_0. */
uint32_t hk_version_1_0_0(void);

/* Where the compiler can be told, every program that includes this header asks for that name, whether it calls the function
 * or not: one word of constants in the whole program. */
#if defined(__ELF__) && (defined(__GNUC__) || defined(__clang__)) && !defined(HK_ANY_VERSION)
#ifdef __arm__
#define HK_PROGBITS "%progbits"
#else
#define HK_PROGBITS "@progbits"
#endif
__asm__(".pushsection .rodata.hk_version,\"aGR\"," HK_PROGBITS ",hk_version,comdat\n"
        ".balign 4\n.4byte hk_version_1_0_0 - .\n.popsection");
#undef HK_PROGBITS
#endif

/* The numbers given back. */
#define HK_DONE 0                     /* done: with 0, 1 or 2 bytes, or a part */
#define HK_FRAME_BROKEN 1             /* opening: the set's first 4 bytes, or its length */
#define HK_CONTENTS_BROKEN 2          /* opening: an entry of the contents */
#define HK_DEVICE_BROKEN 3            /* opening: the device descriptor; of a SuperSpeed set the BOS too */
#define HK_CONFIGURATION_BROKEN 4     /* opening: a configuration body */
#define HK_STRING_BROKEN 5            /* opening: a string, a language or a reference */
#define HK_SERIAL_BROKEN 6            /* opening: the serial block */
#define HK_SET_NOT_ACCEPTABLE 7       /* event: hk_open would refuse the set or the serial block */
#define HK_RECORD_DOES_NOT_FIT 8      /* the image is not 32 bytes, or (events) does not fit the set */
#define HK_SETUP_LENGTH_WRONG 9       /* the setup is not 8 bytes */
#define HK_REQUEST_UNKNOWN 10         /* STALL: request type and code are not in the request table */
#define HK_NOT_IN_THIS_STATE 11       /* STALL: not allowed in this state */
#define HK_FIELD_WRONG 12             /* STALL: wrong wValue, wIndex or wLength */
#define HK_DOES_NOT_EXIST 13          /* STALL: no such descriptor, configuration, interface, setting or endpoint */
#define HK_NO_SUCH_FEATURE 14         /* STALL: feature not there for this recipient */
#define HK_NO_SUCH_PACKET 15          /* packet: size, lengths or packet number */
#define HK_ENDPOINT_UNFIT 16          /* function event on an unfit endpoint; power value above 1; no such endpoint; no such speed */
#define HK_TEST_MODE_ENTERED 17       /* a setup of 8 bytes, once a test mode is entered */
#define HK_NO_SUCH_PORT 18            /* port not below the row's length */
#define HK_WAKE_NOT_ALLOWED 19        /* wake event: not suspended, or the host has not allowed it */
#define HK_PIECES_BROKEN 20           /* makers: the pieces do not end where their lengths say */
#define HK_SET_REFUSED 21             /* makers: over 64 pieces or 16,384 bytes, or hk_open would refuse the set */
#define HK_BUFFER_TOO_SHORT 22        /* makers: what is to be written is longer than the buffer */
#define HK_DUMP_BROKEN 23             /* makers: the dump does not split into a device and configurations */
#define HK_PAIR_BROKEN 24             /* opening two sets: a device_qualifier or an other_speed_configuration */

/* The power sources. */
#define HK_POWER_BUS 0
#define HK_POWER_OWN 1

/* The speeds. */
#define HK_SPEED_FULL 0
#define HK_SPEED_HIGH 1

/* Bytes in memory that the caller lent. Test length, not start: the start of an empty part is NULL only where NULL was
 * lent. */
typedef struct hk_part {
    const uint8_t *start;
    size_t length;
} hk_part;

/* Initialises a hk_part: hk_part part = HK_NO_PART; */
#define HK_NO_PART { (const uint8_t *)"", 0 }

/* Marks a maker's call: it runs on a maker's computer, may take more than 1,024 bytes of stack, and stands in an object of
 * its own in a board's archive, which a board that does not call it does not link. */
#define HK_MAKERS

/* Marks a call of the second way to answer, for boards with large sets: it stands in another object of a board's archive,
 * which a board that does not call it does not link. */
#define HK_LARGE

/* Marks the call for the transfers of endpoint zero on a board that lends two sets: it stands in an object of its own. */
#define HK_TWO_PIPE

/* Power-on: checks the set and the serial block, and makes the image the fresh record (state Default, address 0).
 *
 * HK_DONE: acceptable. HK_FRAME_BROKEN to HK_SERIAL_BROKEN: the first group of rules that is broken. In all these cases
 * the image is fresh afterwards, whatever it held. HK_RECORD_DOES_NOT_FIT: image_length is not HK_IMAGE_LENGTH; nothing
 * was looked at or changed.
 *
 * The fresh record says that the bus supplies the device: call hk_power next, with what the board senses.
 *
 * Only opening mends an image that does not fit: this call, or hk_two_open of a board that lends two sets. */
uint8_t hk_open(const uint8_t *set, size_t set_length, const uint8_t *serial, size_t serial_length,
                uint8_t *image, size_t image_length);

/* A SETUP packet has arrived: its 8 bytes, as they stood on the bus.
 *
 * HK_DONE: answer it. Either *count is 1 or 2, and so many of bytes[0] and bytes[1] are the data stage; or part->length
 * is not 0, and the part is the data stage. Cut it with hk_packet, which is told the setup's wLength too. With neither,
 * no data goes out and the status stage follows.
 * HK_REQUEST_UNKNOWN to HK_NO_SUCH_FEATURE: answer with STALL; only a waiting address (or, where two sets are lent, a
 * waiting test mode) was dropped, and sleep has ended.
 * HK_SET_NOT_ACCEPTABLE, HK_RECORD_DOES_NOT_FIT, HK_SETUP_LENGTH_WRONG: nothing was changed.
 *
 * bytes, *count and *part are always written. What is not handed back is 0: a refusal leaves count 0 and bytes 0, 0, and
 * one byte leaves bytes[1] 0. A part that is not handed back is the set's first 0 bytes.
 *
 * A string that is asked in a language that the set does not list is given in the first listed one.
 *
 * A suspended device is awake again after any setup of 8 bytes, answered or refused, but for one that is refused with
 * HK_SET_NOT_ACCEPTABLE or HK_RECORD_DOES_NOT_FIT.
 *
 * A new address only waits here: hk_status_end takes it, so that the status stage still goes out under the old one. */
uint8_t hk_setup(const uint8_t *set, size_t set_length, const uint8_t *serial, size_t serial_length,
                 uint8_t *image, size_t image_length, const uint8_t *setup, size_t setup_length,
                 uint8_t bytes[2], uint8_t *count, hk_part *part);

/* The status stage of a control transfer has ended: takes the waiting address, if one waits. image[1] is then the
 * address to answer to.
 *
 * HK_DONE, HK_SET_NOT_ACCEPTABLE or HK_RECORD_DOES_NOT_FIT; the last two change nothing. */
uint8_t hk_status_end(const uint8_t *set, size_t set_length, const uint8_t *serial, size_t serial_length,
                      uint8_t *image, size_t image_length);

/* The bus was reset: makes the image the fresh record; only the power source stays. (In an entered test mode, which a board
 * that lends two sets can have, a reset changes nothing: hk_two_event.)
 *
 * HK_DONE, HK_SET_NOT_ACCEPTABLE or HK_RECORD_DOES_NOT_FIT; the last two change nothing. On an image that does not fit,
 * this is HK_RECORD_DOES_NOT_FIT and mends nothing: call hk_open. */
uint8_t hk_bus_reset(const uint8_t *set, size_t set_length, const uint8_t *serial, size_t serial_length,
                     uint8_t *image, size_t image_length);

/* The bus was reset, to a speed: as hk_bus_reset, which is a reset to HK_SPEED_FULL. A board that lends one set has no
 * other speed: HK_ENDPOINT_UNFIT for any, and nothing changes. */
uint8_t hk_bus_reset_to(const uint8_t *set, size_t set_length, const uint8_t *serial, size_t serial_length,
                        uint8_t *image, size_t image_length, uint8_t speed);

/* The function halts an endpoint: a bulk or interrupt endpoint of a current setting, by its address (bit 7 is the
 * direction). Its data toggle stays.
 *
 * HK_DONE; HK_ENDPOINT_UNFIT for any other address; HK_SET_NOT_ACCEPTABLE or HK_RECORD_DOES_NOT_FIT. All but HK_DONE
 * change nothing. */
uint8_t hk_halt(const uint8_t *set, size_t set_length, const uint8_t *serial, size_t serial_length,
                uint8_t *image, size_t image_length, uint8_t endpoint);

/* A data packet has passed on an endpoint: flips its data toggle, and a suspended device is awake again. A bulk or
 * interrupt endpoint of a current setting that is not halted, by its address (bit 7 is the direction).
 *
 * HK_DONE; HK_ENDPOINT_UNFIT for any other address; HK_SET_NOT_ACCEPTABLE or HK_RECORD_DOES_NOT_FIT. All but HK_DONE
 * change nothing. */
uint8_t hk_packet_passed(const uint8_t *set, size_t set_length, const uint8_t *serial, size_t serial_length,
                         uint8_t *image, size_t image_length, uint8_t endpoint);

/* The board senses its supply: source is HK_POWER_BUS or HK_POWER_OWN, and is what GET_STATUS reports from now on. Call
 * this after hk_open and whenever the supply changes. Every other byte of the image stays; an address waits on.
 *
 * HK_DONE; HK_ENDPOINT_UNFIT for any other source; HK_SET_NOT_ACCEPTABLE or HK_RECORD_DOES_NOT_FIT. All but HK_DONE
 * change nothing. */
uint8_t hk_power(const uint8_t *set, size_t set_length, const uint8_t *serial, size_t serial_length,
                 uint8_t *image, size_t image_length, uint8_t source);

/* The bus has gone quiet: the device is suspended, in every state and in a test mode too. It is awake again with hk_resume,
 * a bus reset outside a test mode, any setup of 8 bytes past HK_SET_NOT_ACCEPTABLE and HK_RECORD_DOES_NOT_FIT, and any
 * packet that passes with HK_DONE. Nothing else of the image changes; twice is as good as once.
 *
 * HK_DONE, HK_SET_NOT_ACCEPTABLE or HK_RECORD_DOES_NOT_FIT; the last two change nothing. */
uint8_t hk_suspend(const uint8_t *set, size_t set_length, const uint8_t *serial, size_t serial_length,
                   uint8_t *image, size_t image_length);

/* The bus has come back to life: the device is awake. Numbers as hk_suspend. */
uint8_t hk_resume(const uint8_t *set, size_t set_length, const uint8_t *serial, size_t serial_length,
                  uint8_t *image, size_t image_length);

/* The device would like to wake the host: may the board signal resume?
 *
 * HK_DONE: it may, since the device is suspended and the host has allowed remote wakeup. HK_WAKE_NOT_ALLOWED: it may not.
 * HK_SET_NOT_ACCEPTABLE or HK_RECORD_DOES_NOT_FIT. Nothing is changed in any case: the device sleeps on until the bus comes
 * back to life. */
uint8_t hk_wake(const uint8_t *set, size_t set_length, const uint8_t *serial, size_t serial_length,
                uint8_t *image, size_t image_length);

/* Endpoint descriptor `number` (from 0) of the current settings, in the set's order: what a board opens after a
 * SET_CONFIGURATION or a SET_INTERFACE. It holds address, attributes, wMaxPacketSize and bInterval (bytes 2, 3, 4 and 5, 6)
 * and has at least 7 bytes.
 *
 * HK_DONE: *descriptor is the part of the set. HK_ENDPOINT_UNFIT: there is no such endpoint, or the device is not
 * Configured; so the endpoints come by counting number up until then, and there are never more than 30.
 * HK_SET_NOT_ACCEPTABLE or HK_RECORD_DOES_NOT_FIT. *descriptor is always written: all but HK_DONE leave the set's first 0
 * bytes there. The image is only read: nothing changes, and a waiting address goes on waiting. */
uint8_t hk_endpoint(const uint8_t *set, size_t set_length, const uint8_t *serial, size_t serial_length,
                    const uint8_t *image, size_t image_length, uint8_t number, hk_part *descriptor);

/* The device record as a struct, in the order of its image. On a little-endian machine its 32 bytes are the image, so
 * hk_open opens a record too: hk_open(set, set_length, serial, serial_length, (uint8_t *)&record, sizeof record). */
typedef struct hk_record {
    uint8_t state;          /* 0 Default, 1 Address, 2 Configured */
    uint8_t address;        /* the address to answer to */
    uint8_t waiting;        /* the address that the status end takes, or 128 plus the test mode that it enters; 255 for none */
    uint8_t configuration;  /* the selected bConfigurationValue, 0 for none */
    uint8_t wakeup;         /* 1: the host has allowed remote wakeup */
    uint8_t power;          /* HK_POWER_BUS or HK_POWER_OWN */
    uint8_t suspended;      /* 1: suspended */
    uint8_t speed;          /* HK_SPEED_FULL; with two sets also HK_SPEED_HIGH, and in a test mode 1 plus 16 times it */
    uint8_t alternates[16]; /* the current setting of each interface */
    uint32_t halts;         /* bit e: OUT endpoint e is halted; bit 16 + e: IN endpoint e */
    uint32_t toggles;       /* the data toggles, in the same order */
} hk_record;

/* The events of hk_record_event, hk_two_event, hk_port_event, hk_two_port_event, hk_table_event and hk_two_table_event. */
#define HK_EVENT_SETUP 0         /* as hk_setup: reads setup */
#define HK_EVENT_STATUS_END 1    /* as hk_status_end */
#define HK_EVENT_BUS_RESET 2     /* as hk_bus_reset_to: value is the speed */
#define HK_EVENT_HALT 3          /* as hk_halt: value is the endpoint */
#define HK_EVENT_PACKET_PASSED 4 /* as hk_packet_passed: value is the endpoint */
#define HK_EVENT_POWER 5         /* as hk_power: value is the source */
#define HK_EVENT_SUSPEND 6       /* as hk_suspend */
#define HK_EVENT_RESUME 7        /* as hk_resume */
#define HK_EVENT_WAKE 8          /* as hk_wake */

/* Any event, on a record that stands aligned in memory: what the call for that event does to an image, done to the
 * record where it stands, without a copy to an image and back. Its numbers are that call's too.
 *
 * value is read by HK_EVENT_BUS_RESET, HK_EVENT_HALT, HK_EVENT_PACKET_PASSED and HK_EVENT_POWER alone (else 0), setup by
 * HK_EVENT_SETUP alone (else NULL and 0). bytes, *count and *part are always written, as hk_setup writes them: only a setup hands something
 * back. Any other event number is answered as a setup that is not 8 bytes, HK_SETUP_LENGTH_WRONG, and changes nothing.
 *
 * The record is aligned as a uint32_t is, and overlaps nothing else that is passed. */
uint8_t hk_record_event(const uint8_t *set, size_t set_length, const uint8_t *serial, size_t serial_length,
                        hk_record *record, uint8_t event, uint8_t value, const uint8_t *setup, size_t setup_length,
                        uint8_t bytes[2], uint8_t *count, hk_part *part);

/* ---- A board for high speed: two sets, one for each speed, and one serial block.
 *
 * Each set has the descriptors of its speed, and two types that say what the device is at the other: one device_qualifier
 * (type 6) and an other_speed_configuration (type 7) for each configuration of the other set. */

/* Power-on of a board that lends two sets: as hk_open, of both. HK_FRAME_BROKEN to HK_SERIAL_BROKEN: of the full-speed set,
 * or, where that is acceptable, of the high-speed set. HK_PAIR_BROKEN: each set is acceptable, but types 6 and 7 of one do
 * not say what the other is. */
uint8_t hk_two_open(const uint8_t *full, size_t full_length, const uint8_t *high, size_t high_length,
                    const uint8_t *serial, size_t serial_length, uint8_t *image, size_t image_length);

/* Any event on a board that lends two sets, by its number HK_EVENT_..: what the call for that event does, with the set in
 * use. bytes, *count and *part are always written, as hk_setup writes them. A part lies in the set in use, by image[7] as
 * it was before the call, or in the serial block; one that is not handed back is the full-speed set's first 0 bytes.
 *
 * A bus reset to HK_SPEED_FULL or HK_SPEED_HIGH makes that set the one in use. Any other speed is HK_ENDPOINT_UNFIT.
 *
 * SET_FEATURE(TEST_MODE) waits for the status end, as an address does, and is dropped as an address is: then image[2] is
 * 128 plus the selector of the test mode, 1 to 5. HK_EVENT_STATUS_END enters it: then image[7] is 1 plus 16 times the
 * selector, and the board starts that test on the bus. From then on each setup of 8 bytes is HK_TEST_MODE_ENTERED and ends
 * sleep, as any setup does, and changes nothing else; a bus reset to HK_SPEED_FULL or HK_SPEED_HIGH is HK_DONE and changes
 * nothing, sleep included; every other event goes on as before, HK_EVENT_SUSPEND and HK_EVENT_RESUME too. Only power-on
 * (hk_two_open) ends a test mode. */
uint8_t hk_two_event(const uint8_t *full, size_t full_length, const uint8_t *high, size_t high_length,
                     const uint8_t *serial, size_t serial_length, uint8_t *image, size_t image_length,
                     uint8_t event, uint8_t value, const uint8_t *setup, size_t setup_length,
                     uint8_t bytes[2], uint8_t *count, hk_part *part);

/* Endpoint descriptor `number` of the current settings: as hk_endpoint, of the set in use. All but HK_DONE leave the
 * full-speed set's first 0 bytes in *descriptor. */
uint8_t hk_two_endpoint(const uint8_t *full, size_t full_length, const uint8_t *high, size_t high_length,
                        const uint8_t *serial, size_t serial_length, const uint8_t *image, size_t image_length,
                        uint8_t number, hk_part *descriptor);

/* ---- A board with several ports: a row of records, one for each port, the same set or the same two sets at all of them,
 * and a serial block for each. hk_open or hk_two_open opens the record of each port. */

/* Any event, by its number HK_EVENT_.., at one port: what hk_record_event does, on the record at that port. Every other
 * record is left as it was, and none of them is read: events at different ports may come in any order. serial is the
 * serial block of that port.
 *
 * HK_NO_SUCH_PORT: port is not below row_length, whatever else is passed; nothing is changed, and *part is the set's first
 * 0 bytes. A row of no records may be NULL. The row overlaps nothing else that is passed. */
uint8_t hk_port_event(const uint8_t *set, size_t set_length, const uint8_t *serial, size_t serial_length,
                      hk_record *row, size_t row_length, size_t port, uint8_t event, uint8_t value,
                      const uint8_t *setup, size_t setup_length, uint8_t bytes[2], uint8_t *count, hk_part *part);

/* The same on a board that lends two sets, as hk_two_event: each port has its own speed and test mode. */
uint8_t hk_two_port_event(const uint8_t *full, size_t full_length, const uint8_t *high, size_t high_length,
                          const uint8_t *serial, size_t serial_length, hk_record *row, size_t row_length, size_t port,
                          uint8_t event, uint8_t value, const uint8_t *setup, size_t setup_length,
                          uint8_t bytes[2], uint8_t *count, hk_part *part);

/* A second way to answer any event on an image, by its number: for boards with large sets. What the event asks of the
 * selected configuration is collected while the set is checked, so that no configuration is walked through twice.
 * Number, image, bytes, count and part are proved to be those of the calls above, for every input, so that a board may use
 * both ways in turns. docs/FIRMWARE.md says when to use which. */
HK_LARGE uint8_t hk_table_event(const uint8_t *set, size_t set_length, const uint8_t *serial, size_t serial_length,
                       uint8_t *image, size_t image_length, uint8_t event, uint8_t value,
                       const uint8_t *setup, size_t setup_length, uint8_t bytes[2], uint8_t *count, hk_part *part);

/* The same on a board that lends two sets, as hk_two_event. */
HK_LARGE uint8_t hk_two_table_event(const uint8_t *full, size_t full_length, const uint8_t *high, size_t high_length,
                           const uint8_t *serial, size_t serial_length, uint8_t *image, size_t image_length,
                           uint8_t event, uint8_t value, const uint8_t *setup, size_t setup_length,
                           uint8_t bytes[2], uint8_t *count, hk_part *part);

/* Cuts packet `number` (from 0) out of a reply: asked is the setup's wLength, size is bMaxPacketSize0.
 *
 * HK_DONE: *packet is the part of the reply from number x size on, at most size long. Where the reply is shorter than
 * asked, the last packet is short or empty, which ends the data stage. HK_NO_SUCH_PACKET: size is not 8, 16, 32 or 64,
 * the reply is longer than asked, or there is no such packet; *packet is the reply's first 0 bytes. So the packets go
 * out by counting number up until HK_NO_SUCH_PACKET. A reply of 0 bytes where 0 are asked has no packet. */
uint8_t hk_packet(const uint8_t *reply, size_t reply_length, uint16_t asked, uint32_t size, uint32_t number,
                  hk_part *packet);

/* ---- The transfers of endpoint zero, from packet to packet (docs/PIPE.md).
 *
 * The firmware keeps a fourth block beside the image: pipe, the pipe record, HK_PIPE_LENGTH bytes, all zero at power-on,
 * changed by these calls alone. The peripheral's interrupts are told as events, and each event is answered with one order
 * to the peripheral. The library hears of setups, status ends and bus resets from these calls: a board that uses them makes
 * no call of its own for these three events; all other events are free. */
#define HK_PIPE_LENGTH 16

/* The events of hk_pipe_event and hk_two_pipe_event. The last four are the application's, when it is asked. */
#define HK_PIPE_SETUP 0    /* a SETUP packet: reads setup */
#define HK_PIPE_TAKEN 1    /* the host has acknowledged the packet that was handed over */
#define HK_PIPE_RECEIVED 2 /* a packet of value bytes has come from the host, 0 for an empty one */
#define HK_PIPE_RESET 3    /* a bus reset: value is the speed */
#define HK_PIPE_REPLY 4    /* the application answers, with reply */
#define HK_PIPE_ROOM 5     /* the application has room for value bytes of the host's */
#define HK_PIPE_ACCEPT 6   /* the application takes the request, or its bytes */
#define HK_PIPE_REFUSE 7   /* the application does not */

/* The orders to the peripheral: out[0]. */
#define HK_ORDER_NOTHING 0 /* goes on as it is */
#define HK_ORDER_SEND 1    /* hands over one packet; in a data stage it is ready for the host's empty packet too */
#define HK_ORDER_AWAIT 2   /* waits for the host's empty packet: all data is out */
#define HK_ORDER_RECEIVE 3 /* is ready for one packet of at most out[4] + 256 x out[5] bytes */
#define HK_ORDER_STALL 4   /* stalls endpoint zero until the next SETUP */
#define HK_ORDER_ASK 5     /* nothing yet: the application answers with one of the last four events */

/* The stages: pipe[0]. */
#define HK_STAGE_IDLE 0
#define HK_STAGE_ASKING_SETUP 1 /* a setup that was refused with HK_REQUEST_UNKNOWN */
#define HK_STAGE_DATA_IN 2
#define HK_STAGE_STATUS_OUT 3
#define HK_STAGE_DATA_OUT 4
#define HK_STAGE_ASKING_BYTES 5 /* all bytes that a setup announced are there */
#define HK_STAGE_STATUS_IN 6
#define HK_STAGE_STALLED 7

/* Any event of endpoint zero's transfers, by its number HK_PIPE_..
 *
 * reply is the application's, lent with HK_PIPE_REPLY and then, unchanged, with each event while it goes out; else NULL and
 * 0. value is read by HK_PIPE_RECEIVED, HK_PIPE_RESET and HK_PIPE_ROOM alone (else 0), setup by HK_PIPE_SETUP alone (else
 * NULL and 0). All of out and *part are always written. out[0] is the order. With HK_ORDER_SEND the packet is out[1] of the
 * bytes out[2] and out[3] if out[1] is not 0, else *part, which may be empty. out[4] + 256 x out[5] is the room. What is not
 * handed back is 0, and the set's first 0 bytes.
 *
 * HK_PIPE_SETUP has hk_setup's number; HK_REQUEST_UNKNOWN asks the application, and HK_SETUP_LENGTH_WRONG changes nothing.
 * An event that ends a transfer has hk_status_end's number, HK_PIPE_RESET hk_bus_reset_to's. All others are HK_DONE, or
 * HK_RECORD_DOES_NOT_FIT for a pipe record that does not fit; they open no set, and their cost does not grow with it. Any
 * other event number is a setup that is not 8 bytes. HK_RECORD_DOES_NOT_FIT also for a pipe_length that is not
 * HK_PIPE_LENGTH, whatever else is passed; nothing is changed. */
uint8_t hk_pipe_event(const uint8_t *set, size_t set_length, const uint8_t *serial, size_t serial_length,
                              uint8_t *image, size_t image_length, uint8_t *pipe, size_t pipe_length,
                              const uint8_t *reply, size_t reply_length, uint8_t event, uint16_t value,
                              const uint8_t *setup, size_t setup_length, uint8_t out[6], hk_part *part);

/* The same on a board that lends two sets, as hk_two_event. A part that is not handed back is the full-speed set's first 0
 * bytes. */
HK_TWO_PIPE uint8_t hk_two_pipe_event(const uint8_t *full, size_t full_length, const uint8_t *high, size_t high_length,
                                      const uint8_t *serial, size_t serial_length, uint8_t *image, size_t image_length,
                                      uint8_t *pipe, size_t pipe_length, const uint8_t *reply, size_t reply_length,
                                      uint8_t event, uint16_t value, const uint8_t *setup, size_t setup_length,
                                      uint8_t out[6], hk_part *part);

/* ---- For makers, on a bench computer; no board's. hk_write, hk_super_write and hk_import have arrays of 16,384 bytes in their
 * frames, hk_trim has one of 516; the others need no more stack than a board's call. */

/* Writes a set from its pieces, so that nobody counts offsets: contents and bodies, sorted as hk_open asks.
 *
 * pieces holds them end to end, in any order. A piece is its type (1 device, 2 configuration, 3 string), its index, its
 * language (2 bytes), the length of its body (2 bytes), and the body; a number of 2 bytes has its low byte first. serial
 * is the serial block that the set is to open with.
 *
 * HK_DONE: the set stands at the buffer's start, *written bytes long, and opens with this serial block; the bytes behind
 * it are as they were. HK_PIECES_BROKEN, HK_SET_REFUSED, HK_BUFFER_TOO_SHORT: the first of these that holds, in this
 * order; the buffer is as it was, and *written is 0. A buffer of 16,384 bytes is never too short. To learn why a set is
 * refused, use the program `maker`. */
HK_MAKERS uint8_t hk_write(const uint8_t *pieces, size_t pieces_length, const uint8_t *serial, size_t serial_length,
                 uint8_t *buffer, size_t buffer_length, uint16_t *written);

/* The same for a SuperSpeed set, for another vendor's board: no call of this library but hk_super_open and hk_super_explain
 * takes it. Its pieces have type 15 too, one BOS. HK_SET_REFUSED is then: hk_super_open would refuse the set. */
HK_MAKERS uint8_t hk_super_write(const uint8_t *pieces, size_t pieces_length, const uint8_t *serial, size_t serial_length,
                 uint8_t *buffer, size_t buffer_length, uint16_t *written);

/* Checks a SuperSpeed set as hk_open checks one of full speed, with the same numbers and the same image afterwards. Its rules
 * differ in this: bMaxPacketSize0 is 9; there is one BOS entry (type 15, index 0, language 0, at least 5 bytes, bytes 2 and 3
 * its length), else HK_DEVICE_BROKEN; a companion (type 48, at least 6 bytes) stands directly after every endpoint and nowhere
 * else, else HK_CONFIGURATION_BROKEN; a bulk size is 1,024, an interrupt size 1 to 1,024, an isochronous size 0 to 1,024, and
 * the bInterval of these two is 1 to 16. Events refuse such a set with HK_SET_NOT_ACCEPTABLE. */
HK_MAKERS uint8_t hk_super_open(const uint8_t *set, size_t set_length, const uint8_t *serial, size_t serial_length,
                 uint8_t *image, size_t image_length);

/* Makes a set of a dump: the file that Linux shows for a device that is plugged in, /sys/bus/usb/devices/.../descriptors,
 * which is its device descriptor and its configurations. The set has no strings, so every reference to one becomes 0:
 * iManufacturer, iProduct, iSerialNumber, iConfiguration and each iInterface.
 *
 * HK_DONE: the set stands at the buffer's start, *written bytes long, and opens with an empty serial block; the bytes
 * behind it are as they were. HK_DUMP_BROKEN, HK_SET_REFUSED, HK_BUFFER_TOO_SHORT: the first of these that holds, in this
 * order; the buffer is as it was, and *written is 0. A dump is judged by full speed's rules: that of a high-speed device
 * gives HK_SET_REFUSED where it has a bulk endpoint, whose size is 512, and may pass where it has none. */
HK_MAKERS uint8_t hk_import(const uint8_t *dump, size_t dump_length, uint8_t *buffer, size_t buffer_length, uint16_t *written);

/* The other way: the device descriptor and the configurations of a set, as they are, without the strings.
 *
 * HK_DONE: the dump stands at the buffer's start, *written bytes long; the bytes behind it are as they were.
 * HK_FRAME_BROKEN to HK_SERIAL_BROKEN: hk_open would refuse the set or the serial block; else HK_BUFFER_TOO_SHORT; the
 * buffer is as it was, and *written is 0. */
HK_MAKERS uint8_t hk_export(const uint8_t *set, size_t set_length, const uint8_t *serial, size_t serial_length, uint8_t *buffer,
                  size_t buffer_length, uint16_t *written);

/* Drops the strings that nothing names, in the set's own buffer, which is exactly as long as the set: a string stays if
 * iManufacturer, iProduct, iSerialNumber, an iConfiguration or an iInterface of any setting is its number. String 0 stays
 * if another string does or iSerialNumber is not 0. A string that only a class descriptor or an association names goes.
 *
 * HK_DONE: the set is the buffer's first *total bytes, and the freed bytes behind it are 0; it opens with the same serial
 * block, and answers every request as before but those for a dropped string. Lend its first *total bytes from now on: the
 * whole buffer is refused with HK_FRAME_BROKEN if anything was freed. HK_FRAME_BROKEN to HK_SERIAL_BROKEN: hk_open would
 * refuse the set or the serial block; the buffer is as it was, and *total is 0. */
HK_MAKERS uint8_t hk_trim(uint8_t *set, size_t set_length, const uint8_t *serial, size_t serial_length, uint16_t *total);

/* Tells which rule a set or its serial block breaks first, and where: hk_open's number; *rule, the rule's number in
 * docs/MAKERS.md, which is its group times 100 and its place in the group; and *place, the byte of the set, or of the serial
 * block if the number is HK_SERIAL_BROKEN, at which it is broken. A byte that is missing is told as the last that is there,
 * and as 0 where nothing is lent. HK_DONE: nothing is broken; *rule and *place are 0. The set and the serial block are only
 * read, each configuration once for each question that the call has. */
HK_MAKERS uint8_t hk_explain(const uint8_t *set, size_t set_length, const uint8_t *serial, size_t serial_length,
                   uint16_t *rule, uint32_t *place);

/* As hk_explain, of a SuperSpeed set: hk_super_open's number for the set and the serial block, with the rules for the BOS and
 * the companions too. */
HK_MAKERS uint8_t hk_super_explain(const uint8_t *set, size_t set_length, const uint8_t *serial, size_t serial_length,
                   uint16_t *rule, uint32_t *place);

/* What a rule is about, of two sets lent together. */
#define HK_BLOCK_FULL 0   /* the full-speed set */
#define HK_BLOCK_HIGH 1   /* the high-speed set */
#define HK_BLOCK_SERIAL 2 /* the serial block */

/* As hk_explain, of a pair: hk_two_open's number for both sets and the serial block; *rule; *block, what the rule is about,
 * HK_BLOCK_FULL, HK_BLOCK_HIGH or HK_BLOCK_SERIAL; and *place, the byte of that block. HK_PAIR_BROKEN: a rule from 2401 on,
 * of the full-speed set beside the other, or of the high-speed set beside it. HK_DONE: *block, *rule and *place are 0. */
HK_MAKERS uint8_t hk_two_explain(const uint8_t *full, size_t full_length, const uint8_t *high, size_t high_length,
                   const uint8_t *serial, size_t serial_length, uint8_t *block, uint16_t *rule, uint32_t *place);

#ifdef __cplusplus
}
#endif

#endif
