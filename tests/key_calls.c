// Stands between the program key and C's read and write (LD_PRELOAD), for tests/key. READS and WRITES say, word by word, what successive calls on standard
// input and output do: a number is the most bytes that the call moves, 0 that it moves none; "interrupted", "later" and "broken" make it fail. After the last
// word calls are as ever.
#define _GNU_SOURCE
#include <errno.h>
#include <stdlib.h>
#include <string.h>
#include <sys/syscall.h>
#include <unistd.h>

static const struct {
    const char *word;
    int error;
} failures[] = {{"interrupted", EINTR}, {"later", EAGAIN}, {"broken", EIO}};

static ssize_t call(long number, int fd, void *bytes, size_t most, int mine, const char *name, const char **next) {
    if (*next == NULL) *next = getenv(name) ? getenv(name) : "";
    size_t length = strcspn(*next, " ");
    if (fd != mine || length == 0) return syscall(number, fd, bytes, most);
    const char *word = *next;
    *next += length + (word[length] == ' ');
    for (size_t i = 0; i < sizeof failures / sizeof *failures; i++) {
        if (length == strlen(failures[i].word) && strncmp(word, failures[i].word, length) == 0) {
            errno = failures[i].error;
            return -1;
        }
    }
    size_t few = strtoul(word, NULL, 10);
    return few == 0 ? 0 : syscall(number, fd, bytes, few < most ? few : most);
}

static const char *reads, *writes;
ssize_t read(int fd, void *bytes, size_t most) { return call(SYS_read, fd, bytes, most, 0, "READS", &reads); }
ssize_t write(int fd, const void *bytes, size_t most) { return call(SYS_write, fd, (void *)bytes, most, 1, "WRITES", &writes); }
