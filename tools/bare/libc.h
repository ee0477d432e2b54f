/* What the tests use of C's library and of POSIX, for a machine without an operating system. Each header of include/ is this one. */
#ifndef BARE_LIBC_H
#define BARE_LIBC_H

#include <stdarg.h>
#include <stddef.h>
#include <stdint.h>

typedef int ssize_t;

/* string.h */
void *memcpy(void *to, const void *from, size_t length);
void *memmove(void *to, const void *from, size_t length);
void *memset(void *to, int byte, size_t length);
int memcmp(const void *one, const void *other, size_t length);
int strcmp(const char *one, const char *other);
size_t strlen(const char *text);

/* stdio.h */
typedef struct bare_file {
    int handle;
} FILE;
#define stderr ((FILE *)NULL)
int printf(const char *format, ...) __attribute__((format(printf, 1, 2)));
int fprintf(FILE *file, const char *format, ...) __attribute__((format(printf, 2, 3)));
int putchar(int character);
int puts(const char *text);
FILE *fopen(const char *name, const char *mode);
size_t fread(void *to, size_t each, size_t count, FILE *file);
size_t fwrite(const void *from, size_t each, size_t count, FILE *file);
int fclose(FILE *file);
void perror(const char *text);

/* stdlib.h */
void *malloc(size_t length);
long strtol(const char *text, char **end, int base);
unsigned long strtoul(const char *text, char **end, int base);
_Noreturn void exit(int status);

/* time.h: there is no clock here, so it stands still */
#define CLOCK_MONOTONIC 1
struct timespec {
    long tv_sec, tv_nsec;
};
int clock_gettime(int clock, struct timespec *now);

/* unistd.h */
ssize_t read(int file, void *to, size_t length);
ssize_t write(int file, const void *from, size_t length);
_Noreturn void _exit(int status);

/* sys/mman.h: there is no forbidden memory here, so only the guard bytes tell */
#define PROT_NONE 0
#define PROT_READ 1
#define PROT_WRITE 2
#define MAP_PRIVATE 2
#define MAP_ANONYMOUS 32
#define MAP_FAILED ((void *)-1)
void *mmap(void *at, size_t length, int protection, int flags, int file, long offset);
int mprotect(void *at, size_t length, int protection);

/* signal.h: a fault of the processor is a SIGSEGV */
#define SIGILL 4
#define SIGTRAP 5
#define SIGABRT 6
#define SIGBUS 7
#define SIGFPE 8
#define SIGSEGV 11
typedef void signal_handler(int signal_number);
signal_handler *signal(int signal_number, signal_handler *handler);

/* A fault of the processor: the handler of SIGSEGV hears of it, if there is one. */
_Noreturn void bare_fault(void);

#endif
