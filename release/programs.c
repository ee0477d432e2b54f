/* What a program asks of the machine where the toolchain brings no such code: its start, its arguments, errors, and files opened by x86-64's numbers. */
#include <errno.h>
#include <fcntl.h>
#include <signal.h>
#include <stdarg.h>
#include <stddef.h>
#include <stdint.h>
#include <sys/types.h>

static int words_count;
static char **words;

int rattle_main(void);

/* As the toolchain's own start, but for the look at x86-64's features. */
int main(int count, char **given) {
    words_count = count;
    words = given;
    signal(SIGPIPE, SIG_IGN);
    return rattle_main();
}

/* The argument's length, -1 where there is none, -2 where it does not fit; then the buffer is full. */
ssize_t rattle_arg(size_t number, uint8_t *buffer, size_t length) {
    if (number >= (size_t)words_count || words[number] == NULL)
        return -1;
    const char *word = words[number];
    size_t at = 0;
    for (; word[at] != 0; at++) {
        if (at == length)
            return -2;
        buffer[at] = (uint8_t)word[at];
    }
    return (ssize_t)at;
}

int rattle_errno(void) {
    return errno;
}

void rattle_set_errno(int error) {
    errno = error;
}

/* The module has x86-64's numbers for how a file is opened, and those of errors, which are the same on each of these processors. */
static const struct {
    int asked, here;
} openings[] = {{0x1, O_WRONLY}, {0x2, O_RDWR}, {0x40, O_CREAT}, {0x80, O_EXCL}, {0x100, O_NOCTTY}, {0x200, O_TRUNC}, {0x400, O_APPEND}, {0x80000, O_CLOEXEC}};
_Static_assert(ENOENT == 2 && EINTR == 4 && EAGAIN == 11 && EACCES == 13 && EEXIST == 17 && ENOSPC == 28 && ENAMETOOLONG == 36 && ELOOP == 40, "errors");

int rattle_open(const char *path, int asked, ...) {
    int flags = O_RDONLY;
    for (size_t at = 0; at < sizeof openings / sizeof *openings; at++)
        if (asked & openings[at].asked) {
            flags |= openings[at].here;
            asked &= ~openings[at].asked;
        }
    if (asked != 0) {
        errno = EINVAL;
        return -1;
    }
    if (!(flags & O_CREAT))
        return open(path, flags);
    va_list more;
    va_start(more, asked);
    mode_t mode = va_arg(more, unsigned);
    va_end(more);
    return open(path, flags, mode);
}
