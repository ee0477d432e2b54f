#include "libc.h"

/* Semihosting: the emulator does what is asked of it in a register and a block of words. */
enum operation { OPEN = 1, CLOSE = 2, WRITE = 5, READ = 6, GET_COMMAND_LINE = 0x15, EXIT_EXTENDED = 0x20 };

#define STOPPED_BY_EXIT 0x20026
#define MODE_READ 1
#define MODE_WRITE 5
#define MODE_APPEND 9

static uintptr_t semihosting(enum operation operation, const void *words) {
#if defined(__thumb__)
    register uintptr_t result __asm__("r0") = operation;
    register const void *block __asm__("r1") = words;
    __asm__ volatile("bkpt 0xab" : "+r"(result) : "r"(block) : "memory");
#else
    register uintptr_t result __asm__("a0") = operation;
    register const void *block __asm__("a1") = words;
    __asm__ volatile(".option push\n.option norvc\n.balign 16\nslli x0, x0, 0x1f\nebreak\nsrai x0, x0, 7\n.option pop"
                     : "+r"(result) : "r"(block) : "memory");
#endif
    return result;
}

/* ---- files: 0 and 1 are opened when they are first used */
static int handles[2] = {-1, -1};

static int open_file(const char *name, uint32_t mode) {
    uintptr_t words[3] = {(uintptr_t)name, mode, strlen(name)};
    return (int)semihosting(OPEN, words);
}

static int handle_of(int file) {
    if (handles[file] < 0)
        handles[file] = open_file(file == 0 ? "/dev/stdin" : "/dev/stdout", file == 0 ? MODE_READ : MODE_APPEND);
    return handles[file];
}

/* Both operations tell how many bytes are left. */
static size_t transfer(enum operation operation, int handle, const void *bytes, size_t length) {
    uintptr_t words[3] = {(uintptr_t)handle, (uintptr_t)bytes, length};
    size_t left = semihosting(operation, words);
    return left > length ? 0 : length - left;
}

ssize_t read(int file, void *to, size_t length) {
    return (ssize_t)transfer(READ, handle_of(file), to, length);
}

ssize_t write(int file, const void *from, size_t length) {
    return (ssize_t)transfer(WRITE, handle_of(file), from, length);
}

FILE *fopen(const char *name, const char *mode) {
    static FILE file; /* the tests have one open at a time */
    file.handle = open_file(name, mode[0] == 'r' ? MODE_READ : MODE_WRITE);
    return file.handle < 0 ? NULL : &file;
}

size_t fread(void *to, size_t each, size_t count, FILE *file) {
    return transfer(READ, file->handle, to, each * count) / each;
}

size_t fwrite(const void *from, size_t each, size_t count, FILE *file) {
    return transfer(WRITE, file->handle, from, each * count) / each;
}

int fclose(FILE *file) {
    uintptr_t words[1] = {(uintptr_t)file->handle};
    return (int)semihosting(CLOSE, words);
}

/* ---- printing: %c %d %s %u %x %X with a width and leading zeros; %.0f, which only a clock needs, is 0 */
static char printed[1024];
static size_t printed_length;

static void flush(void) {
    size_t length = printed_length;
    printed_length = 0;
    if (length > 0)
        write(1, printed, length);
}

int putchar(int character) {
    if (printed_length == sizeof printed)
        flush();
    printed[printed_length++] = (char)character;
    return character;
}

static void put_text(const char *text) {
    while (*text != 0)
        putchar(*text++);
}

void perror(const char *text) {
    puts(text);
}

int puts(const char *text) {
    put_text(text);
    return putchar('\n');
}

static void put_number(unsigned long number, unsigned base, int width, char fill, const char *digits) {
    char text[33];
    int at = sizeof text - 1;
    text[at] = 0;
    do {
        text[--at] = digits[number % base];
        number /= base;
    } while (number != 0);
    for (int length = (int)sizeof text - 1 - at; length < width; length++)
        putchar(fill);
    put_text(text + at);
}

static void put_signed(long number, int width, char fill) {
    if (number < 0)
        putchar('-');
    put_number(number < 0 ? 0ul - (unsigned long)number : (unsigned long)number, 10, width, fill, "0123456789");
}

/* int, long and size_t are all 32 bits wide. */
static void put_argument(char kind, va_list *arguments, int width, char fill) {
    switch (kind) {
    case 'c':
        putchar(va_arg(*arguments, int));
        break;
    case 's':
        put_text(va_arg(*arguments, const char *));
        break;
    case 'd':
        put_signed(va_arg(*arguments, long), width, fill);
        break;
    case 'u':
        put_number(va_arg(*arguments, unsigned long), 10, width, fill, "0123456789");
        break;
    case 'x':
        put_number(va_arg(*arguments, unsigned long), 16, width, fill, "0123456789abcdef");
        break;
    case 'X':
        put_number(va_arg(*arguments, unsigned long), 16, width, fill, "0123456789ABCDEF");
        break;
    case 'f':
        (void)va_arg(*arguments, double);
        putchar('0');
        break;
    default:
        putchar(kind);
    }
}

static void put_formatted(const char *format, va_list *arguments) {
    for (; *format != 0; format++) {
        if (*format != '%') {
            putchar(*format);
            continue;
        }
        char fill = *++format == '0' ? '0' : ' ';
        int width = 0;
        for (; *format >= '0' && *format <= '9'; format++)
            width = 10 * width + *format - '0';
        while (*format == 'l' || *format == 'z' || *format == '.' || *format == '0')
            format++;
        put_argument(*format, arguments, width, fill);
    }
}

int printf(const char *format, ...) {
    va_list arguments;
    va_start(arguments, format);
    put_formatted(format, &arguments);
    va_end(arguments);
    return 0;
}

/* There is one place to print to. */
int fprintf(FILE *file, const char *format, ...) {
    va_list arguments;
    (void)file;
    va_start(arguments, format);
    put_formatted(format, &arguments);
    va_end(arguments);
    return 0;
}

/* ---- the program's end, and its faults */
static signal_handler *handler;

_Noreturn void _exit(int status) {
    uintptr_t words[2] = {STOPPED_BY_EXIT, (uintptr_t)status};
    flush();
    semihosting(EXIT_EXTENDED, words);
    for (;;)
        ;
}

_Noreturn void exit(int status) {
    _exit(status);
}

signal_handler *signal(int signal_number, signal_handler *chosen) {
    if (signal_number == SIGSEGV)
        handler = chosen;
    return NULL;
}

_Noreturn void bare_fault(void) {
    if (handler != NULL)
        handler(SIGSEGV);
    put_text("NOT as it should be: the processor has trapped\n");
    _exit(3);
}

/* A result of the library fills its whole register: the caller's convention lets it rely on that. */
uint8_t a_byte(unsigned long whole_register);
uint8_t a_byte(unsigned long whole_register) {
    if (whole_register > 255)
        bare_fault();
    return (uint8_t)whole_register;
}

/* ---- memory, which is never given back */
extern char memory_free[];
static char *free_memory = memory_free;

void *malloc(size_t length) {
    char *given = free_memory;
    free_memory += (length + 15) / 16 * 16;
    return given;
}

void *mmap(void *at, size_t length, int protection, int flags, int file, long offset) {
    (void)at, (void)protection, (void)flags, (void)file, (void)offset;
    return malloc(length);
}

int mprotect(void *at, size_t length, int protection) {
    (void)at, (void)length, (void)protection;
    return 0;
}

/* ---- words */
int strcmp(const char *one, const char *other) {
    while (*one != 0 && *one == *other)
        one++, other++;
    return (unsigned char)*one - (unsigned char)*other;
}

size_t strlen(const char *text) {
    size_t length = 0;
    while (text[length] != 0)
        length++;
    return length;
}

static int digit_of(char character) {
    if (character >= '0' && character <= '9')
        return character - '0';
    character |= 0x20;
    return character >= 'a' && character <= 'z' ? character - 'a' + 10 : 36;
}

unsigned long strtoul(const char *text, char **end, int base) {
    unsigned long number = 0;
    for (; digit_of(*text) < base; text++)
        number = number * (unsigned)base + (unsigned)digit_of(*text);
    if (end != NULL)
        *end = (char *)(uintptr_t)text;
    return number;
}

long strtol(const char *text, char **end, int base) {
    return (long)strtoul(text, end, base);
}

int clock_gettime(int clock, struct timespec *now) {
    (void)clock;
    now->tv_sec = now->tv_nsec = 0;
    return 0;
}

/* The words of the emulator's command line, the program's name first. */
int bare_arguments(char ***arguments);
int bare_arguments(char ***arguments) {
    static char line[512], *words[16];
    uintptr_t block[2] = {(uintptr_t)line, sizeof line};
    int count = 0;
    semihosting(GET_COMMAND_LINE, block);
    for (char *at = line; *at != 0 && count < 15;) {
        words[count++] = at;
        while (*at != 0 && *at != ' ')
            at++;
        if (*at == ' ')
            *at++ = 0;
    }
    *arguments = words;
    return count;
}

/* ---- bytes, one at a time: newlib's memcpy makes unaligned loads on a Cortex-M3 or M4, which trap here */
void *memcpy(void *to, const void *from, size_t length) {
    return memmove(to, from, length);
}

void *memmove(void *to, const void *from, size_t length) {
    char *target = to;
    const char *source = from;
    if (target <= source)
        for (size_t at = 0; at < length; at++)
            target[at] = source[at];
    else
        while (length-- > 0)
            target[length] = source[length];
    return to;
}

void *memset(void *to, int byte, size_t length) {
    for (size_t at = 0; at < length; at++)
        ((char *)to)[at] = (char)byte;
    return to;
}

int memcmp(const void *one, const void *other, size_t length) {
    const uint8_t *left = one, *right = other;
    for (size_t at = 0; at < length; at++)
        if (left[at] != right[at])
            return left[at] - right[at];
    return 0;
}
