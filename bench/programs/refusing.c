/* Refuses memory once: of the calls of malloc, calloc, realloc and their kin that a program makes, the one with the number REFUSE_AT gets none.
   The program's calls are counted from the start of main, and the count is written into the file REFUSE_COUNT as the program ends. */
#include <errno.h>
#include <stddef.h>
#include <stdio.h>
#include <stdlib.h>

extern void *__libc_malloc(size_t);
extern void *__libc_calloc(size_t, size_t);
extern void *__libc_realloc(void *, size_t);
extern void *__libc_memalign(size_t, size_t);

static unsigned long refused, count;
static int is_counting;

__attribute__((constructor)) static void begin(void) {
    const char *at = getenv("REFUSE_AT");
    refused = at ? strtoul(at, NULL, 10) : 0;
    is_counting = 1;
}

__attribute__((destructor)) static void end(void) {
    is_counting = 0;
    const char *path = getenv("REFUSE_COUNT");
    FILE *file = path ? fopen(path, "w") : NULL;
    if (file) {
        fprintf(file, "%lu\n", count);
        fclose(file);
    }
}

static int is_refused(void) {
    if (!is_counting || __atomic_add_fetch(&count, 1, __ATOMIC_SEQ_CST) != refused)
        return 0;
    errno = ENOMEM;
    return 1;
}

void *malloc(size_t size) { return is_refused() ? NULL : __libc_malloc(size); }
void *calloc(size_t items, size_t size) { return is_refused() ? NULL : __libc_calloc(items, size); }
void *realloc(void *old, size_t size) { return is_refused() ? NULL : __libc_realloc(old, size); }
void *aligned_alloc(size_t align, size_t size) { return is_refused() ? NULL : __libc_memalign(align, size); }
void *memalign(size_t align, size_t size) { return is_refused() ? NULL : __libc_memalign(align, size); }
int posix_memalign(void **place, size_t align, size_t size) {
    if (is_refused())
        return ENOMEM;
    *place = __libc_memalign(align, size);
    return *place ? 0 : ENOMEM;
}
