/* Refuses memory to the program that it is preloaded into: the call for memory whose number REFUSE_AT gives, and with
   REFUSE_LATER each later one too. Calls for fewer bytes than REFUSE_SIZE, where it is given, are granted and not counted.
   At the end it writes to the standard error how many calls it counted, and how many it refused. */

#include <errno.h>
#include <stdio.h>
#include <stdlib.h>
#include <unistd.h>

extern void *__libc_malloc(size_t size);
extern void *__libc_calloc(size_t count, size_t size);
extern void *__libc_realloc(void *old, size_t size);
extern void *__libc_memalign(size_t alignment, size_t size);

static unsigned long at, least, calls, refused;
static int later;

static unsigned long number(const char *name) {
    const char *digits = getenv(name);
    return digits ? strtoul(digits, NULL, 10) : 0;
}

__attribute__((constructor)) static void begin(void) {
    at = number("REFUSE_AT");
    least = number("REFUSE_SIZE");
    later = getenv("REFUSE_LATER") != NULL;
}

__attribute__((destructor)) static void end(void) {
    char line[64];
    int length = snprintf(line, sizeof line, "%lu %lu\n", calls, refused);
    if (write(STDERR_FILENO, line, length) != length)
        _exit(125);
}

static int refuses(size_t size) {
    if (size < least)
        return 0;
    calls++;
    if (at == 0 || calls < at || (calls > at && !later))
        return 0;
    refused++;
    errno = ENOMEM;
    return 1;
}

void *malloc(size_t size) {
    return refuses(size) ? NULL : __libc_malloc(size);
}

void *calloc(size_t count, size_t size) {
    return refuses(count * size) ? NULL : __libc_calloc(count, size);
}

void *realloc(void *old, size_t size) {
    return refuses(size) ? NULL : __libc_realloc(old, size);
}

void *memalign(size_t alignment, size_t size) {
    return refuses(size) ? NULL : __libc_memalign(alignment, size);
}

void *aligned_alloc(size_t alignment, size_t size) {
    return refuses(size) ? NULL : __libc_memalign(alignment, size);
}

int posix_memalign(void **to, size_t alignment, size_t size) {
    void *made = refuses(size) ? NULL : __libc_memalign(alignment, size);
    if (made == NULL)
        return ENOMEM;
    *to = made;
    return 0;
}
