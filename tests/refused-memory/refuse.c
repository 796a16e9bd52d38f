/* Counts the allocations of a program, and refuses some of them: from number `first` to number `last`, counted from 1.

   It is loaded before the C library. The numbers stand in the file REFUSED of the environment, and so do the counts, which can
   then be read however the program ends. */

#include <errno.h>
#include <fcntl.h>
#include <stddef.h>
#include <stdint.h>
#include <stdlib.h>
#include <sys/mman.h>
#include <unistd.h>

extern void *__libc_malloc(size_t size);
extern void *__libc_calloc(size_t many, size_t size);
extern void *__libc_realloc(void *block, size_t size);
extern void *__libc_memalign(size_t align, size_t size);

struct tally {
    uint64_t first, last, asked, refused;
};

static struct tally *tally;

__attribute__((constructor)) static void begin(void) {
    const char *name = getenv("REFUSED");
    int file = name ? open(name, O_RDWR) : -1;
    void *mapped = file < 0 ? MAP_FAILED : mmap(NULL, sizeof *tally, PROT_READ | PROT_WRITE, MAP_SHARED, file, 0);
    if (mapped == MAP_FAILED)
        _exit(99);
    close(file);
    tally = mapped;
}

static int is_refused(void) {
    if (!tally)
        return 0;
    tally->asked++;
    if (tally->asked < tally->first || tally->asked > tally->last)
        return 0;
    tally->refused++;
    errno = ENOMEM;
    return 1;
}

void *malloc(size_t size) {
    return is_refused() ? NULL : __libc_malloc(size);
}

void *calloc(size_t many, size_t size) {
    return is_refused() ? NULL : __libc_calloc(many, size);
}

void *realloc(void *block, size_t size) {
    return is_refused() ? NULL : __libc_realloc(block, size);
}

void *memalign(size_t align, size_t size) {
    return is_refused() ? NULL : __libc_memalign(align, size);
}

void *aligned_alloc(size_t align, size_t size) {
    return is_refused() ? NULL : __libc_memalign(align, size);
}

int posix_memalign(void **block, size_t align, size_t size) {
    void *got = is_refused() ? NULL : __libc_memalign(align, size);
    if (!got)
        return ENOMEM;
    *block = got;
    return 0;
}
