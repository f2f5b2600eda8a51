/* Refuses one growth of a program that it is loaded into (LD_PRELOAD): the one whose number stands in STARVE_AT, counted from 1.
   At its end the program's count of growths is written to the file that STARVE_TELL names. */
#include <errno.h>
#include <fcntl.h>
#include <stdlib.h>
#include <unistd.h>

extern void *__libc_malloc(size_t size);
extern void *__libc_calloc(size_t count, size_t size);
extern void *__libc_realloc(void *held, size_t size);

static unsigned long growths;
static unsigned long refused;

__attribute__((constructor)) static void begin(void) {
    const char *at = getenv("STARVE_AT");
    growths = 0;
    refused = at ? strtoul(at, NULL, 10) : 0;
}

static int is_refused(void) {
    if (++growths != refused) {
        return 0;
    }
    errno = ENOMEM;
    return 1;
}

void *malloc(size_t size) {
    return is_refused() ? NULL : __libc_malloc(size);
}

void *calloc(size_t count, size_t size) {
    return is_refused() ? NULL : __libc_calloc(count, size);
}

void *realloc(void *held, size_t size) {
    return is_refused() ? NULL : __libc_realloc(held, size);
}

__attribute__((destructor)) static void tell(void) {
    const char *path = getenv("STARVE_TELL");
    char digits[24];
    size_t at = sizeof digits;
    unsigned long left = growths;
    int file = path ? open(path, O_WRONLY | O_CREAT | O_TRUNC, 0600) : -1;
    if (file < 0) {
        return;
    }
    do {
        digits[--at] = '0' + left % 10;
        left /= 10;
    } while (left);
    if (write(file, digits + at, sizeof digits - at) < 0) {
        _exit(99);
    }
    close(file);
}
