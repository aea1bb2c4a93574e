/* Preloaded into a program, counts what it asks of memory and refuses the one of the number REFUSE,
   or all from there on where that begins with `+`. Where CALLS is set, the count begins anew, and
   lasts, from a line that begins with `call` to one that begins with `back`. Each refusal is told by
   one byte on the descriptor 9. Where READS is `none` each read is interrupted, and where it is `one`
   each gives one space. It needs no header, so that the kit's own compiler makes it. */
typedef unsigned long size_t;
typedef long ssize_t;

void *__libc_malloc(size_t);
void *__libc_calloc(size_t, size_t);
void *__libc_realloc(void *, size_t);
void *__libc_memalign(size_t, size_t);
ssize_t __write(int, const void *, size_t);
char *getenv(const char *);
long atol(const char *);
ssize_t __read(int, void *, size_t);
int *__errno_location(void);

static long number, seen;
static int from_there_on, counts, by_calls;
static char reads;

__attribute__((constructor)) static void begin(void) {
    const char *word = getenv("REFUSE");
    by_calls = getenv("CALLS") != 0;
    reads = getenv("READS") != 0 ? *getenv("READS") : 0;
    if (word != 0) {
        from_there_on = *word == '+';
        number = atol(word + from_there_on);
        counts = !by_calls;
    }
}

static int is_refused(void) {
    if (!counts)
        return 0;
    long now = __atomic_add_fetch(&seen, 1, __ATOMIC_SEQ_CST);
    if (now != number && !(from_there_on && now > number))
        return 0;
    __write(9, "x", 1);
    *__errno_location() = 12; /* ENOMEM */
    return 1;
}

void *malloc(size_t size) { return is_refused() ? 0 : __libc_malloc(size); }

void *calloc(size_t count, size_t size) { return is_refused() ? 0 : __libc_calloc(count, size); }

void *realloc(void *block, size_t size) { return is_refused() ? 0 : __libc_realloc(block, size); }

void *memalign(size_t to, size_t size) { return is_refused() ? 0 : __libc_memalign(to, size); }

void *aligned_alloc(size_t to, size_t size) { return memalign(to, size); }

int posix_memalign(void **block, size_t to, size_t size) {
    void *given = memalign(to, size);
    if (given == 0)
        return 12;
    *block = given;
    return 0;
}

static int begins(const char *text, size_t length, const char *word) {
    for (size_t i = 0; i < 4; i++)
        if (i >= length || text[i] != word[i])
            return 0;
    return 1;
}

ssize_t write(int to, const void *text, size_t length) {
    if (by_calls && begins(text, length, "back"))
        counts = 0;
    ssize_t written = __write(to, text, length);
    if (by_calls && number != 0 && begins(text, length, "call")) {
        seen = 0;
        counts = 1;
    }
    return written;
}

ssize_t read(int from, void *room, size_t length) {
    if (reads == 0 || length == 0)
        return __read(from, room, length);
    if (reads == 'o') {
        *(char *)room = ' ';
        return 1;
    }
    *__errno_location() = 4; /* EINTR */
    return -1;
}
