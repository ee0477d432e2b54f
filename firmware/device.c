#include "device.h"
#include "hardware.h"

/* The two requests after which other endpoints are there. */
#define REQUEST_SET_CONFIGURATION 0x09
#define REQUEST_SET_INTERFACE 0x0B

/* ---- The library's calls for this kind of board. */
#ifdef DEVICE_TWO_SETS
#define CALL(name) hk_two_##name
#else
#define CALL(name) hk_##name
#endif

/* Where events go: to the board's one record, or to that of a port. */
#ifdef DEVICE_PORTS
#define EVENT(name) CALL(port_##name)
#define RECORD(device) (device)->row, (device)->row_length, (device)->port
#else
#define EVENT(name) CALL(name)
#define RECORD(device) &(device)->record
#endif

#define TELL(device, event, value) EVENT(tell)((device)->board, RECORD(device), event, value)

static hk_record *own_record(struct device *device) {
#ifdef DEVICE_PORTS
    return &device->row[device->port];
#else
    return &device->record;
#endif
}

/* ---- The loop. */

/* The record's address is the one to answer to: a new one waits in another byte until its status stage has ended. */
static void follow_record(const struct device *device) {
    hardware_set_address(device_record(device)->address);
    hardware_set_endpoints(device_record(device));
}

static hk_answer current_endpoint(struct device *device, uint8_t number) {
    return CALL(current_endpoint)(device->board, own_record(device), number);
}

/* The endpoints of the current settings: the library tells them one by one, so that no firmware walks descriptors. */
static void open_endpoints(struct device *device) {
    hk_answer endpoint;
    hardware_close_endpoints();
    for (uint8_t number = 0; (endpoint = current_endpoint(device, number)).number == HK_DONE; number++)
        hardware_open_endpoint(endpoint.part.start);
}

static void conclude(const struct device *device, uint8_t number) {
    if (number == HK_DONE)
        follow_record(device);
    else
        application_hear(number);
}

/* What the host is told by D0 of GET_STATUS. */
static uint8_t tell_power(struct device *device) {
    return TELL(device, HK_EVENT_POWER, hardware_power_source());
}

/* Setups, status ends and bus resets reach the library by the pipe alone. */
static void step(struct device *device, uint8_t event, uint16_t value, const uint8_t *setup) {
    device->order = CALL(step)(device->board, own_record(device), &device->pipe, event, value, setup);
}

/* The fresh record is at full speed, and says that the bus is the supply: opening cannot know. */
static uint8_t open_afresh(struct device *device, uint8_t speed) {
    static const hk_pipe idle = {{HK_STAGE_IDLE}, HK_NO_PART};
    device->pipe = idle;
    uint8_t number = CALL(start)(device->board, own_record(device));
    if (number == HK_DONE && speed != HK_SPEED_FULL) {
        step(device, HK_PIPE_RESET, speed, NULL);
        number = device->order.number;
    }
    return number == HK_DONE ? tell_power(device) : number;
}

static int changes_settings(const uint8_t *setup) {
    return (setup[0] == 0x00 && setup[1] == REQUEST_SET_CONFIGURATION) ||
           (setup[0] == 0x01 && setup[1] == REQUEST_SET_INTERFACE);
}

/* How many of the host's bytes have come, by bytes 8 and 9 of the pipe record. */
static size_t received_bytes(const struct device *device) {
    return device->pipe.record[8] | (size_t)device->pipe.record[9] << 8;
}

/* Where nothing is ordered a transfer may have ended: the record is followed. What the peripheral awaits when all is out it
 * is ready for since the first packet. A STALL without a number is for what the application does not take, and for a packet
 * of another length than the host said. */
static void obey(struct device *device) {
    hk_part packet = hk_sent(&device->order);
    uint8_t number = device->order.number;
    switch (hk_order_of(&device->order)) {
    case HK_ORDER_NOTHING:
        conclude(device, number);
        break;
    case HK_ORDER_SEND:
        if (device->pipe.record[0] == HK_STAGE_DATA_IN)
            hardware_receive_status();
        hardware_send_packet(packet.start, packet.length);
        break;
    case HK_ORDER_RECEIVE:
        hardware_receive_packet(device->room + received_bytes(device), hk_room(&device->order));
        break;
    case HK_ORDER_STALL:
        hardware_stall_endpoint_zero();
        application_hear(number == HK_DONE ? HK_REQUEST_UNKNOWN : number);
        break;
    }
}

static void tell_pipe(struct device *device, uint8_t event, uint16_t value) {
    step(device, event, value, NULL);
    obey(device);
}

static int asks(const struct device *device) {
    return hk_order_of(&device->order) == HK_ORDER_ASK;
}

/* The application's answer is the pipe's next event. */
static void ask_application(struct device *device, const uint8_t *setup) {
    struct application_data data = {HK_NO_PART, NULL, 0};
    for (size_t at = 0; at < HK_SETUP_LENGTH; at++)
        device->setup[at] = setup[at];
    uint8_t answer = application_setup(setup, &data);
    device->pipe.reply = data.reply;
    device->room = data.room;
    tell_pipe(device, answer, data.room_length < UINT16_MAX ? (uint16_t)data.room_length : UINT16_MAX);
}

/* The record is followed before the status stage, which tells the host that it is done. */
static void handle_setup(struct device *device, const uint8_t *setup) {
    device->pipe.reply = hk_no_part();
    step(device, HK_PIPE_SETUP, 0, setup);
    if (device->order.number == HK_SETUP_LENGTH_WRONG)
        hardware_stall_endpoint_zero(); /* the pipe orders nothing: such a peripheral is broken */
    if (device->order.number == HK_DONE && changes_settings(setup))
        open_endpoints(device);
    if (device->order.number == HK_DONE || asks(device))
        follow_record(device);
    obey(device);
    if (asks(device))
        ask_application(device, setup);
}

/* A test mode is entered when its status stage has ended, so that the host gets it still. */
static void follow_test_mode(const struct device *device) {
#ifdef DEVICE_TWO_SETS
    uint8_t speed = device_record(device)->speed;
    if (speed > HK_SPEED_HIGH)
        hardware_enter_test_mode(speed / 16);
#else
    (void)device;
#endif
}

static void handle_packet_taken(struct device *device) {
    tell_pipe(device, HK_PIPE_TAKEN, 0);
    follow_test_mode(device);
}

/* All the host's bytes may be there: then the application is asked about them. */
static void handle_packet_received(struct device *device, uint16_t received) {
    tell_pipe(device, HK_PIPE_RECEIVED, received);
    if (asks(device))
        tell_pipe(device, application_take(device->setup, device->room, received_bytes(device)), 0);
}

/* Only opening mends a record that does not fit, and a bus reset is the time for it: all starts afresh anyhow. */
static void handle_bus_reset(struct device *device, uint8_t speed) {
#ifndef DEVICE_TWO_SETS
    speed = HK_SPEED_FULL; /* there is no other */
#endif
    step(device, HK_PIPE_RESET, speed, NULL);
    if (device->order.number == HK_RECORD_DOES_NOT_FIT) {
        application_hear(HK_RECORD_DOES_NOT_FIT);
        device->order.number = open_afresh(device, speed);
    }
    open_endpoints(device);
    obey(device);
}

static void handle(struct device *device, const struct hardware_event *event) {
    switch (event->kind) {
    case HARDWARE_BUS_RESET:
        handle_bus_reset(device, event->speed);
        break;
    case HARDWARE_SETUP:
        handle_setup(device, event->setup_length == HK_SETUP_LENGTH ? event->setup : NULL);
        break;
    case HARDWARE_PACKET_TAKEN:
        handle_packet_taken(device);
        break;
    case HARDWARE_STATUS_RECEIVED:
        handle_packet_received(device, 0);
        break;
    case HARDWARE_PACKET_RECEIVED:
        handle_packet_received(device, event->received);
        break;
    case HARDWARE_ENDPOINT_PACKET:
        conclude(device, TELL(device, HK_EVENT_PACKET_PASSED, event->endpoint));
        break;
    case HARDWARE_POWER_CHANGED:
        conclude(device, tell_power(device));
        break;
    case HARDWARE_SUSPEND:
        conclude(device, TELL(device, HK_EVENT_SUSPEND, 0));
        break;
    case HARDWARE_RESUME:
        conclude(device, TELL(device, HK_EVENT_RESUME, 0));
        break;
    }
}

/* What the hardware is asked goes to the device's port. */
static void select_port(const struct device *device) {
#ifdef DEVICE_PORTS
    hardware_select_port(device->port);
#else
    (void)device;
#endif
}

uint8_t device_start(struct device *device, const hk_board *board) {
    device->board = board;
    select_port(device);
    uint8_t number = open_afresh(device, HK_SPEED_FULL);
    open_endpoints(device);
    conclude(device, number);
    return number;
}

#ifndef DEVICE_PORTS
void device_run(struct device *device) {
    struct hardware_event event;
    while (hardware_wait(&event))
        handle(device, &event);
}
#else
void device_run(struct device *const *devices) {
    struct hardware_event event;
    while (hardware_wait(&event)) {
        hardware_select_port(event.port);
        handle(devices[event.port], &event);
    }
}
#endif

uint8_t device_halt(struct device *device, uint8_t endpoint) {
    select_port(device);
    uint8_t number = TELL(device, HK_EVENT_HALT, endpoint);
    conclude(device, number);
    return number;
}

/* The record stays as it is: the sleep ends when the host resumes the bus. */
uint8_t device_wake(struct device *device) {
    select_port(device);
    uint8_t number = TELL(device, HK_EVENT_WAKE, 0);
    if (number == HK_DONE)
        hardware_signal_wakeup();
    return number;
}
