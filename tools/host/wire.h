/* The wire between the bench host and the device loop, in memory: the host puts tokens on it, the loop runs at once,
 * and what the loop asked of its hardware (firmware/hardware.h) is the answer. */
#ifndef WIRE_H
#define WIRE_H

#include "../../firmware/device.h"
#include "../../firmware/serial.h"

enum wire_answer {
    WIRE_DONE,  /* acknowledged, or a packet came */
    WIRE_STALL,
    WIRE_SILENT /* nobody has this address, the device is not ready, or the endpoint is not open */
};

/* An instrument has up to so many ports, each with a wire of its own; the calls below are for the one selected, port 0 at
 * first. */
#define WIRE_PORTS 2
void wire_select(size_t port);

/* The board: its device loop, and its application's serial port, NULL where there is none. */
void wire_attach(struct device *device, struct serial_port *port);
void wire_reset_bus(uint8_t speed);

/* The test mode that the peripheral was last told to enter, 0 if none. */
uint8_t wire_test_mode(void);

/* The bus falls silent, and wakes. Whether the device has signalled since it fell silent. */
void wire_suspend(void);
void wire_resume(void);
int wire_wakeup_signalled(void);

/* The board draws from this supply from now on. */
void wire_change_power(uint8_t source);

/* Endpoint zero of the device that has this address. A SETUP is always acknowledged. */
enum wire_answer wire_send_setup(uint8_t address, const uint8_t *setup);
enum wire_answer wire_take_packet(uint8_t address, hk_part *packet);
enum wire_answer wire_send_status(uint8_t address);
enum wire_answer wire_send_packet(uint8_t address, const uint8_t *bytes, size_t length);

/* An OUT packet that nobody waits for, and a peripheral that reports it all the same. */
void wire_send_stray_out(void);

/* The code of a vendor request to the device that the bench's application knows: it keeps so many bytes at the most, and
 * gives them back. */
#define WIRE_KEEP 0x42
#define WIRE_MOST_KEPT 200

/* From now on the hardware hands over so many bytes of a SETUP. */
void wire_hand_over(uint8_t setup_length);

/* A data packet on another endpoint, at the device's own address. */
enum wire_answer wire_pass_packet(uint8_t endpoint);

/* The endpoints that are open, by their descriptors, in the order in which they were opened. */
#define WIRE_MOST_ENDPOINTS 30
size_t wire_open_endpoints(const uint8_t *descriptors[WIRE_MOST_ENDPOINTS]);

/* Whether the hardware was told of the record's endpoints as they are now. */
int wire_follows_record(void);

/* The number that the application heard last, HK_DONE if none since the last time that it was asked. */
uint8_t wire_heard(void);

#endif
