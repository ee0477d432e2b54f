/* What a real host does with a plugged-in device, through Linux's own files (usbfs, a serial port), in the guest of tests/linux.
 *
 * guest control NODE TYPE CODE VALUE INDEX LENGTH   a control transfer to the host: its bytes
 * guest loop NODE INTERFACE OUT IN LENGTH           bytes to one endpoint of an interface, and the same back from another
 * guest halt NODE INTERFACE IN                      SET_FEATURE halt, a transfer that stalls, and clearing by the host
 * guest usbtest NODE TEST ITERATIONS LENGTH VARY SGLEN   a test of Linux's driver usbtest
 * guest serial PORT TEXT                            a raw terminal: a line, and what comes back
 * guest cut PORT BYTES                              passes one connection on to port 3240, for so many of its caller's bytes;
 *                                                   ends with 3 where the caller falls silent before
 *
 * Prints one line; ends with 1 where it went wrong. */
#define _GNU_SOURCE
#include <arpa/inet.h>
#include <errno.h>
#include <fcntl.h>
#include <linux/usbdevice_fs.h>
#include <poll.h>
#include <signal.h>
#include <stdio.h>
#include <stdlib.h>
#include <string.h>
#include <sys/ioctl.h>
#include <sys/socket.h>
#include <termios.h>
#include <unistd.h>

#define PATIENCE 5000 /* milliseconds */
#define SILENCE 8000
#define MOST 65536

/* usbtest's own (drivers/usb/misc/usbtest.c). */
struct test_parameters {
    uint32_t number, iterations, length, vary, scatter;
    int64_t seconds, microseconds;
};
#define USBTEST_REQUEST _IOWR('U', 100, struct test_parameters)

static unsigned number(const char *word) {
    return (unsigned)strtoul(word, NULL, 0);
}

static int wrong(const char *what) {
    printf("%s: %s\n", what, strerror(errno));
    return 1;
}

static int open_node(const char *name) {
    int node = open(name, O_RDWR);
    if (node < 0)
        exit(wrong(name));
    return node;
}

static int transfer_control(int node, const unsigned *fields, void *bytes) {
    struct usbdevfs_ctrltransfer control = {(uint8_t)fields[0],  (uint8_t)fields[1],  (uint16_t)fields[2],
                                            (uint16_t)fields[3], (uint16_t)fields[4], PATIENCE, bytes};
    return ioctl(node, USBDEVFS_CONTROL, &control);
}

static int control(char **words) {
    static uint8_t bytes[MOST];
    unsigned fields[5];
    for (int at = 0; at < 5; at++)
        fields[at] = number(words[1 + at]);
    int got = transfer_control(open_node(words[0]), fields, bytes);
    if (got < 0)
        return wrong("control");
    for (int at = 0; at < got; at++)
        printf("%02x%s", bytes[at], at + 1 < got ? " " : "");
    putchar('\n');
    return 0;
}

static int bulk(int node, unsigned endpoint, uint8_t *bytes, unsigned length) {
    struct usbdevfs_bulktransfer transfer = {endpoint, length, PATIENCE, bytes};
    return ioctl(node, USBDEVFS_BULK, &transfer);
}

static int loop(char **words) {
    static uint8_t sent[MOST], back[MOST];
    int node = open_node(words[0]), got = 0;
    unsigned interface = number(words[1]), out = number(words[2]), in = number(words[3]), length = number(words[4]);
    for (unsigned at = 0; at < length; at++)
        sent[at] = (uint8_t)(at * 7 + out);
    if (ioctl(node, USBDEVFS_CLAIMINTERFACE, &interface) < 0)
        return wrong("claim");
    if (bulk(node, out, sent, length) != (int)length)
        return wrong("out");
    while (got < (int)length) {
        int more = bulk(node, in, back + got, sizeof back / 2);
        if (more <= 0)
            return wrong("in");
        got += more;
    }
    if (got != (int)length || memcmp(sent, back, length) != 0)
        return printf("other bytes came back\n"), 1;
    printf("loop %02x %02x: %u bytes\n", out, in, length);
    return 0;
}

static int halt(char **words) {
    uint8_t bytes[64];
    int node = open_node(words[0]);
    unsigned interface = number(words[1]), in = number(words[2]);
    unsigned set_halt[5] = {2, 3, 0, in, 0};
    if (ioctl(node, USBDEVFS_CLAIMINTERFACE, &interface) < 0 || transfer_control(node, set_halt, NULL) < 0)
        return wrong("halt");
    if (bulk(node, in, bytes, sizeof bytes) != -1 || errno != EPIPE)
        return wrong("no stall");
    if (ioctl(node, USBDEVFS_CLEAR_HALT, &in) < 0)
        return wrong("clear");
    printf("halt %02x: stalled and cleared\n", in);
    return 0;
}

static int usbtest(char **words) {
    struct test_parameters test = {number(words[1]), number(words[2]), number(words[3]), number(words[4]), number(words[5]), 0, 0};
    struct usbdevfs_ioctl request = {0, (int)USBTEST_REQUEST, &test};
    if (ioctl(open_node(words[0]), USBDEVFS_IOCTL, &request) < 0)
        return printf("usbtest %u: %s\n", test.number, strerror(errno)), 1;
    printf("usbtest %u: passed in %ld.%02ld s\n", test.number, (long)test.seconds, (long)test.microseconds / 10000);
    return 0;
}

static int serial(char **words) {
    char line[256], back[256];
    size_t got = 0;
    struct termios raw;
    int port = open_node(words[0]);
    tcgetattr(port, &raw);
    cfmakeraw(&raw);
    tcsetattr(port, TCSANOW, &raw);
    int length = snprintf(line, sizeof line, "%s\r", words[1]);
    if (write(port, line, (size_t)length) != length)
        return wrong("write");
    while (got < sizeof back - 1 && memchr(back, '\n', got) == NULL) {
        struct pollfd wait = {port, POLLIN, 0};
        ssize_t more = poll(&wait, 1, PATIENCE) == 1 ? read(port, back + got, sizeof back - 1 - got) : -1;
        if (more <= 0)
            return wrong("read");
        got += (size_t)more;
    }
    printf("serial: %.*s\n", (int)strcspn(back, "\r\n"), back);
    return 0;
}

static struct sockaddr_in loopback(unsigned port) {
    struct sockaddr_in address;
    memset(&address, 0, sizeof address);
    address.sin_family = AF_INET;
    address.sin_port = htons((uint16_t)port);
    address.sin_addr.s_addr = htonl(INADDR_LOOPBACK);
    return address;
}

/* Bytes of the one to the other, at most so many: how many, or -1 at the end. */
static long pass_on(int from, int to, long most) {
    static char bytes[MOST];
    ssize_t got = read(from, bytes, most < MOST ? (size_t)most : MOST);
    return got > 0 && write(to, bytes, (size_t)got) == got ? got : -1;
}

static int cut(char **words) {
    long left = (long)number(words[1]), went = 1;
    struct sockaddr_in here = loopback(number(words[0])), there = loopback(3240);
    int listener = socket(AF_INET, SOCK_STREAM, 0), server = socket(AF_INET, SOCK_STREAM, 0), yes = 1;
    signal(SIGPIPE, SIG_IGN);
    setsockopt(listener, SOL_SOCKET, SO_REUSEADDR, &yes, sizeof yes);
    if (bind(listener, (struct sockaddr *)&here, sizeof here) < 0 || listen(listener, 1) < 0)
        return wrong("listen");
    int caller = accept(listener, NULL, NULL);
    if (connect(server, (struct sockaddr *)&there, sizeof there) < 0)
        return wrong("connect");
    while (left > 0 && went > 0) {
        struct pollfd both[] = {{caller, POLLIN, 0}, {server, POLLIN, 0}};
        if (poll(both, 2, SILENCE) <= 0)
            return 3;
        if (both[1].revents)
            went = pass_on(server, caller, MOST);
        if (both[0].revents && went > 0 && (went = pass_on(caller, server, left)) > 0)
            left -= went;
    }
    return 0;
}

int main(int count, char **words) {
    static const struct {
        const char *name;
        int words;
        int (*does)(char **);
    } commands[] = {{"control", 6, control}, {"loop", 5, loop}, {"halt", 3, halt}, {"usbtest", 6, usbtest}, {"serial", 2, serial}, {"cut", 2, cut}};
    for (size_t at = 0; at < sizeof commands / sizeof *commands; at++)
        if (count == 2 + commands[at].words && strcmp(words[1], commands[at].name) == 0)
            return commands[at].does(words + 2);
    return 2;
}
