/* plug [--port NUMBER] [SET [SERIAL]]
 * plug_pair [--port NUMBER] [--full] [FULL HIGH [SERIAL]]
 *
 * Plugs a set into the computer at hand: a USB/IP server over the device loop of firmware/, which tells every control transfer.
 * The second is a board that lends two sets, at high speed or, with --full, at full speed. Without files it is the titrator of
 * firmware/sets.c, or its pair.
 *
 * It listens on the loopback interface alone. Ends with 1 where the set is refused, with 2 where it cannot be done. */
#include <arpa/inet.h>
#include <errno.h>
#include <fcntl.h>
#include <netinet/in.h>
#include <netinet/tcp.h>
#include <poll.h>
#include <stdio.h>
#include <stdlib.h>
#include <string.h>
#include <sys/socket.h>
#include <unistd.h>

#include "../firmware/sets.h"
#include "../tools/host/words.h"
#include "queue.h"

#define PORT_OF_USBIP 3240
#define MOST_CONNECTIONS 4
#define MOST_SET 65536
#define UNWRITTEN_MEMORY 0xA5

/* The device as the other side knows it: bus 1, device 1. */
#define BUS_ID "1-1"
#define BUS_PATH "/sys/devices/heideklonk/usb1/1-1"
#define DEVICE_NUMBER 0x00010001
#define ADDRESS_FED 1
#define SELF_POWERED 0x40 /* of bmAttributes */
#define USBIP_FULL_SPEED 2
#define USBIP_HIGH_SPEED 3

#define LONGEST_MESSAGE (COMMAND_LENGTH + LONGEST_TRANSFER + MOST_PACKETS * PACKET_LENGTH)

/* A connection: its requests come first; once it has imported the device, its commands. */
static struct connection {
    int socket, imported, closing;
    uint8_t read[LONGEST_MESSAGE];
    size_t length;
    struct replies replies; /* what was not sent yet, from `sent` on */
    size_t sent;
} connections[MOST_CONNECTIONS];

static struct host host;
static hk_board board;
static uint8_t speed;
static unsigned port = PORT_OF_USBIP;

/* ---- The device. */

/* The first configuration's body: its entry is the second, type 2 after type 1. */
static const uint8_t *first_configuration(void) {
    const uint8_t *set = speed == HK_SPEED_FULL ? board.set : board.high;
    return set + two_bytes(set + 16);
}

static const uint8_t *device_descriptor(void) {
    const uint8_t *set = speed == HK_SPEED_FULL ? board.set : board.high;
    return set + two_bytes(set + 8);
}

/* Each time that it is plugged in it gets power, a bus reset and an address, which the other side's host controller keeps to
 * itself. */
static uint8_t power_on(void) {
    memset(&host, 0, sizeof host);
    memset(&host.device, UNWRITTEN_MEMORY, sizeof host.device);
    settings_of(&host.device);
    wire_attach(&host.device, NULL);
    instrument_start();
    return device_start(&host.device, &board);
}

static void plug_in(struct connection *connection) {
    power_on();
    if (first_configuration()[7] & SELF_POWERED)
        wire_change_power(HK_POWER_OWN);
    queue_start(&host, &connection->replies);
    printf("\n# Attached; the host keeps resets and SET_ADDRESS to itself, so they are made up here\n");
    reset_bus_to(&host, speed);
    host.packet_size = current_device_descriptor()[7];
    ask(&host, 0x00, SET_ADDRESS, ADDRESS_FED, 0, 0, HK_DONE);
    host.address = ADDRESS_FED;
    printf("\n# What the host asks\n");
}

/* ---- What is said before the device is imported. */

static uint8_t *more(struct connection *connection, size_t length) {
    uint8_t *start = connection->replies.bytes + connection->replies.length;
    connection->replies.length += length;
    memset(start, 0, length);
    return start;
}

static void reply_operation(struct connection *connection, unsigned code, uint32_t status) {
    uint8_t *bytes = more(connection, OPERATION_LENGTH);
    write_two(bytes, VERSION);
    write_two(bytes + 2, code & ~(unsigned)REPLY_BIT);
    write_four(bytes + 4, status);
}

static void describe_device(struct connection *connection) {
    const uint8_t *device = device_descriptor(), *configuration = first_configuration();
    uint8_t *bytes = more(connection, DEVICE_LENGTH);
    memcpy(bytes, BUS_PATH, sizeof BUS_PATH);
    memcpy(bytes + PATH_LENGTH, BUS_ID, sizeof BUS_ID);
    bytes = write_four(bytes + PATH_LENGTH + BUS_ID_LENGTH, DEVICE_NUMBER >> 16);
    bytes = write_four(bytes, DEVICE_NUMBER & 0xFFFF);
    bytes = write_four(bytes, speed == HK_SPEED_FULL ? USBIP_FULL_SPEED : USBIP_HIGH_SPEED);
    for (size_t field = 8; field <= 12; field += 2)
        bytes = write_two(bytes, two_bytes(device + field)); /* vendor, product, release */
    memcpy(bytes, device + 4, 3);                            /* class, subclass, protocol */
    bytes[4] = device[17];
    bytes[5] = configuration[4];
}

/* Each interface once, by its first setting. */
static void describe_interfaces(struct connection *connection) {
    const uint8_t *configuration = first_configuration();
    size_t length = two_bytes(configuration + 2);
    for (size_t at = 0; at < length; at = next_descriptor(configuration, length, at))
        if (configuration[at + 1] == TYPE_INTERFACE && configuration[at + 3] == 0)
            memcpy(more(connection, INTERFACE_LENGTH), configuration + at + 5, 3);
}

static void list_devices(struct connection *connection) {
    printf("listed\n");
    reply_operation(connection, REQUEST_DEVICE_LIST, OPERATION_DONE);
    write_four(more(connection, 4), 1);
    describe_device(connection);
    describe_interfaces(connection);
    connection->closing = 1;
}

static int is_plugged_in(void) {
    for (size_t at = 0; at < MOST_CONNECTIONS; at++)
        if (connections[at].socket >= 0 && connections[at].imported)
            return 1;
    return 0;
}

static void import(struct connection *connection, const uint8_t *bus_id) {
    uint32_t status = is_plugged_in() ? OPERATION_BUSY : OPERATION_DONE;
    if (memcmp(bus_id, BUS_ID, sizeof BUS_ID) != 0)
        status = OPERATION_REFUSED;
    reply_operation(connection, REQUEST_IMPORT, status);
    if (status != OPERATION_DONE) {
        printf("import refused: %s\n", status == OPERATION_BUSY ? "the device is attached already" : "the bus id is not " BUS_ID);
        connection->closing = 1;
        return;
    }
    describe_device(connection);
    connection->imported = 1;
}

/* ---- Messages. */

static void hang_up(struct connection *connection) {
    close(connection->socket);
    connection->socket = -1;
    if (!connection->imported)
        return;
    queue_start(&host, &connection->replies);
    printf("\n# Detached\n");
}

static void cut_off(struct connection *connection, const char *why) {
    printf("cut off: %s\n", why);
    hang_up(connection);
}

static const char *wrong_operation(const uint8_t *bytes) {
    unsigned code = (unsigned)bytes[2] << 8 | bytes[3];
    if (bytes[0] != VERSION >> 8 || bytes[1] != (VERSION & 0xFF))
        return "not version 1.1.1 of USB/IP";
    return code == REQUEST_DEVICE_LIST || code == REQUEST_IMPORT ? NULL : "no request of USB/IP";
}

static const char *wrong_command(const struct command *command) {
    if (command->command != COMMAND_SUBMIT && command->command != COMMAND_UNLINK)
        return "no command of USB/IP";
    if (command->device != DEVICE_NUMBER)
        return "a command for another device";
    if (command->command == COMMAND_UNLINK)
        return NULL;
    if (command->endpoint > 15 || command->direction > 1)
        return "no endpoint has this number or direction";
    if (command->length > LONGEST_TRANSFER)
        return "a transfer is too long";
    return command->packets > MOST_PACKETS && command->packets != NO_PACKETS ? "a transfer has too many packets" : NULL;
}

static size_t data_length(const struct command *command) {
    return command->command == COMMAND_SUBMIT && !command->direction ? command->length : 0;
}

static size_t packets_length(const struct command *command) {
    int any = command->command == COMMAND_SUBMIT && command->packets != NO_PACKETS;
    return any ? (size_t)PACKET_LENGTH * command->packets : 0;
}

/* Handles the command that stands first, if all of it is there: its length, or 0. */
static size_t handle_command(struct connection *connection) {
    if (connection->length < COMMAND_LENGTH)
        return 0;
    struct command command = read_command(connection->read);
    const char *wrong = wrong_command(&command);
    if (wrong != NULL) {
        cut_off(connection, wrong);
        return 0;
    }
    size_t data = data_length(&command), packets = packets_length(&command);
    if (connection->length < COMMAND_LENGTH + data + packets)
        return 0;
    if (command.command == COMMAND_UNLINK)
        queue_unlink(&command);
    else
        queue_submit(&command, data > 0 ? connection->read + COMMAND_LENGTH : NULL,
                     packets > 0 ? connection->read + COMMAND_LENGTH + data : NULL);
    return COMMAND_LENGTH + data + packets;
}

static size_t handle_operation(struct connection *connection) {
    if (connection->length < OPERATION_LENGTH)
        return 0;
    const char *wrong = wrong_operation(connection->read);
    if (wrong != NULL) {
        cut_off(connection, wrong);
        return 0;
    }
    if (connection->read[3] == (REQUEST_DEVICE_LIST & 0xFF)) {
        list_devices(connection);
        return OPERATION_LENGTH;
    }
    if (connection->length < OPERATION_LENGTH + BUS_ID_LENGTH)
        return 0;
    import(connection, connection->read + OPERATION_LENGTH);
    if (connection->imported)
        plug_in(connection);
    return OPERATION_LENGTH + BUS_ID_LENGTH;
}

/* Messages are handled while all that was said is sent, so that what waits to be sent stays bounded. */
static void handle_messages(struct connection *connection) {
    size_t handled = 1;
    while (handled > 0 && connection->socket >= 0 && !connection->closing && connection->replies.length == 0) {
        handled = connection->imported ? handle_command(connection) : handle_operation(connection);
        connection->length -= handled;
        memmove(connection->read, connection->read + handled, connection->length);
    }
}

/* ---- Sockets. */

static int would_wait(void) {
    return errno == EAGAIN || errno == EWOULDBLOCK || errno == EINTR;
}

static void receive(struct connection *connection) {
    ssize_t got = recv(connection->socket, connection->read + connection->length, sizeof connection->read - connection->length, 0);
    if (got > 0)
        connection->length += (size_t)got;
    else if (got == 0 || !would_wait())
        hang_up(connection);
}

static void send_replies(struct connection *connection) {
    struct replies *replies = &connection->replies;
    if (connection->socket < 0 || replies->length == 0)
        return;
    ssize_t went = send(connection->socket, replies->bytes + connection->sent, replies->length - connection->sent, MSG_NOSIGNAL);
    if (went > 0)
        connection->sent += (size_t)went;
    else if (!would_wait())
        hang_up(connection);
    if (connection->sent == replies->length) {
        replies->length = connection->sent = 0;
        if (connection->closing && connection->socket >= 0)
            hang_up(connection);
    }
}

/* Something of what can be done without waiting: whether to try again. Nothing may be left that no event would recall. */
static int work(struct connection *connection) {
    size_t before = connection->length;
    if (connection->imported && connection->replies.length == 0)
        queue_progress();
    handle_messages(connection);
    int said = connection->replies.length > 0;
    send_replies(connection);
    return connection->socket >= 0 && connection->replies.length == 0 && (said || connection->length != before);
}

static void serve(struct connection *connection, short happened) {
    if (happened & (POLLIN | POLLHUP | POLLERR) && connection->length < sizeof connection->read)
        receive(connection);
    while (connection->socket >= 0 && work(connection))
        ;
}

static void have_no_connections(void) {
    for (size_t at = 0; at < MOST_CONNECTIONS; at++)
        connections[at].socket = -1;
}

static struct connection *free_connection(void) {
    for (size_t at = 0; at < MOST_CONNECTIONS; at++)
        if (connections[at].socket < 0)
            return &connections[at];
    return NULL;
}

static void admit(int socket) {
    struct connection *connection = free_connection();
    int yes = 1;
    if (connection == NULL) {
        printf("refused: too many connections\n");
        close(socket);
        return;
    }
    fcntl(socket, F_SETFL, fcntl(socket, F_GETFL) | O_NONBLOCK);
    setsockopt(socket, IPPROTO_TCP, TCP_NODELAY, &yes, sizeof yes);
    connection->socket = socket;
    connection->imported = connection->closing = 0;
    connection->length = connection->sent = connection->replies.length = 0;
}

/* Bound to the loopback interface, it can have no other caller; one that had another address would be refused all the same. */
static void accept_caller(int listener) {
    struct sockaddr_in caller;
    socklen_t length = sizeof caller;
    int socket = accept(listener, (struct sockaddr *)&caller, &length);
    if (socket < 0)
        return;
    if (caller.sin_family == AF_INET && ntohl(caller.sin_addr.s_addr) >> 24 == 127) {
        admit(socket);
        return;
    }
    printf("refused: a caller from elsewhere\n");
    close(socket);
}

static int listen_at_loopback(void) {
    struct sockaddr_in address;
    int listener = socket(AF_INET, SOCK_STREAM, 0), yes = 1;
    memset(&address, 0, sizeof address);
    address.sin_family = AF_INET;
    address.sin_port = htons((uint16_t)port);
    address.sin_addr.s_addr = htonl(INADDR_LOOPBACK);
    if (listener < 0 || setsockopt(listener, SOL_SOCKET, SO_REUSEADDR, &yes, sizeof yes) != 0 ||
        bind(listener, (struct sockaddr *)&address, sizeof address) != 0 || listen(listener, SOMAXCONN) != 0) {
        fprintf(stderr, "plug: port %u of 127.0.0.1: %s%s\n", port, strerror(errno),
                errno == EADDRINUSE ? " (another plug, or usbipd? --port takes another number)" : "");
        exit(2);
    }
    return listener;
}

/* What is waited for: more to read, or, while something is to be sent, that it can be. The last place is the listener's. */
static void fill_places(struct pollfd *places, int listener) {
    for (size_t at = 0; at < MOST_CONNECTIONS; at++) {
        struct pollfd place = {connections[at].socket, connections[at].replies.length > 0 ? POLLOUT : POLLIN, 0};
        places[at] = place;
    }
    struct pollfd last = {listener, POLLIN, 0};
    places[MOST_CONNECTIONS] = last;
}

static void take_events(int listener) {
    struct pollfd places[MOST_CONNECTIONS + 1];
    fill_places(places, listener);
    poll(places, MOST_CONNECTIONS + 1, queue_patience());
    for (size_t at = 0; at < MOST_CONNECTIONS; at++)
        if (connections[at].socket >= 0)
            serve(&connections[at], places[at].revents);
    if (places[MOST_CONNECTIONS].revents & POLLIN)
        accept_caller(listener);
}

/* ---- Words. */

static size_t read_block(const char *name, uint8_t *bytes) {
    FILE *file = fopen(name, "rb");
    if (file == NULL) {
        fprintf(stderr, "plug: %s: %s\n", name, strerror(errno));
        exit(2);
    }
    size_t length = fread(bytes, 1, MOST_SET, file);
    fclose(file);
    return length;
}

/* The files in the order of the usage; none is the titrator. */
static void lend(int count, char **names) {
    static uint8_t set[MOST_SET], high[MOST_SET], serial[MOST_SET];
    int sets = 1;
#ifdef DEVICE_TWO_SETS
    sets = 2;
    board = titrator_pair_board;
#else
    board = titrator_board;
#endif
    if (count == 0)
        return;
    hk_board lent = {set, read_block(names[0], set), serial, 0, NULL, 0};
    board = lent;
    if (sets == 2) {
        board.high = high;
        board.high_length = read_block(names[1], high);
    }
    if (count > sets)
        board.serial_length = read_block(names[sets], serial);
}

static int take_words(int count, char **words) {
    int sets = 1, at = 1;
#ifdef DEVICE_TWO_SETS
    sets = 2;
    speed = HK_SPEED_HIGH;
#endif
    for (; at < count && words[at][0] == '-'; at++) {
        if (strcmp(words[at], "--full") == 0)
            speed = HK_SPEED_FULL;
        else if (strcmp(words[at], "--port") == 0 && at + 1 < count && (port = (unsigned)atoi(words[at + 1])) - 1 < 65535)
            at++;
        else
            return 0;
    }
    if (count - at != 0 && count - at != sets && count - at != sets + 1)
        return 0;
    lend(count - at, words + at);
    return 1;
}

static void tell_what_to_type(void) {
    char other[32] = "";
    const uint8_t *device = device_descriptor();
    if (port != PORT_OF_USBIP)
        snprintf(other, sizeof other, "--tcp-port %u ", port);
    printf("plugged in at 127.0.0.1, port %u, %s speed. In another terminal, as root:\n", port,
           speed == HK_SPEED_FULL ? "full" : "high");
    printf("    modprobe vhci-hcd\n    usbip %sattach -r 127.0.0.1 -b " BUS_ID "\n", other);
    printf("    lsusb -v -d %04x:%04x\n    usbip detach -p 0    (usbip port tells which)\n", two_bytes(device + 8),
           two_bytes(device + 10));
}

int main(int count, char **words) {
    setvbuf(stdout, NULL, _IOLBF, 0);
    if (!take_words(count, words)) {
        fprintf(stderr, "usage: plug [--port NUMBER] [SET [SERIAL]], plug_pair [--port NUMBER] [--full] [FULL HIGH [SERIAL]]\n");
        return 2;
    }
    uint8_t number = power_on();
    if (number != HK_DONE) {
        print_refusal(number);
        return 1;
    }
    have_no_connections();
    int listener = listen_at_loopback();
    tell_what_to_type();
    for (;;)
        take_events(listener);
}
