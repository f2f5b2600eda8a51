/* Laid before the C library of a program (LD_PRELOAD), this tells on standard error each call by which the program has opened a file, written
   or synced: its name, its file, where and how many bytes; behind a `write` its bytes follow. The write to a place in a file whose number stands
   in FAILING_WRITE, counted from 1, fails, and so does the sync whose number stands in FAILING_SYNC. It needs no header, so the kit's
   compiler builds it. */
typedef unsigned long size;
typedef long offset;

extern void *dlsym(void *from, const char *name);
extern char *getenv(const char *name);
extern int *__errno_location(void);

#define BEHIND_THIS ((void *)-1L)
#define INPUT_OUTPUT_ERROR 5

static unsigned long writes, syncs;

static unsigned long number_in(const char *name) {
    const char *digits = getenv(name);
    unsigned long number = 0;
    while (digits && *digits >= '0' && *digits <= '9') {
        number = number * 10 + (unsigned long)(*digits++ - '0');
    }
    return number;
}

static long put(int file, const void *bytes, size length) {
    return ((long (*)(int, const void *, size))dlsym(BEHIND_THIS, "write"))(file, bytes, length);
}

static char *add_text(char *end, const char *text) {
    while (*text) {
        *end++ = *text++;
    }
    return end;
}

static char *add_number(char *end, unsigned long number) {
    char digits[20];
    int count = 0;
    do {
        digits[count++] = (char)('0' + number % 10);
        number /= 10;
    } while (number);
    *end++ = ' ';
    while (count) {
        *end++ = digits[--count];
    }
    return end;
}

static void tell(const char *name, int file, unsigned long place, unsigned long length) {
    char line[96];
    char *end = add_text(line, name);
    end = add_number(end, (unsigned long)file);
    end = add_number(end, place);
    end = add_number(end, length);
    *end++ = '\n';
    put(2, line, (size)(end - line));
}

static int failed(void) {
    *__errno_location() = INPUT_OUTPUT_ERROR;
    return -1;
}

int open(const char *path, int flags, unsigned mode) {
    int file = ((int (*)(const char *, int, unsigned))dlsym(BEHIND_THIS, "open"))(path, flags, mode);
    if (file >= 0) {
        tell("open", file, 0, 0);
    }
    return file;
}

long write(int file, const void *bytes, size length) {
    long put_out = put(file, bytes, length);
    if (put_out > 0) {
        tell("write", file, 0, (unsigned long)put_out);
        put(2, bytes, (size)put_out);
    }
    return put_out;
}

long pwrite(int file, const void *bytes, size length, offset place) {
    if (++writes == number_in("FAILING_WRITE")) {
        return failed();
    }
    long put_there = ((long (*)(int, const void *, size, offset))dlsym(BEHIND_THIS, "pwrite"))(file, bytes, length, place);
    if (put_there >= 0) {
        tell("pwrite", file, (unsigned long)place, (unsigned long)put_there);
    }
    return put_there;
}

static int sync_by(const char *name, int file) {
    if (++syncs == number_in("FAILING_SYNC")) {
        return failed();
    }
    int answer = ((int (*)(int))dlsym(BEHIND_THIS, name))(file);
    if (answer == 0) {
        tell("sync", file, 0, 0);
    }
    return answer;
}

int fsync(int file) {
    return sync_by("fsync", file);
}

int fdatasync(int file) {
    return sync_by("fdatasync", file);
}
