/* Refuses one growth of memory, the one whose number REFUSED tells, counted from 1, and makes the file that TOLD names then. */
#include <fcntl.h>
#include <stddef.h>
#include <stdlib.h>
#include <unistd.h>

extern void *__libc_malloc(size_t size);
extern void *__libc_realloc(void *from, size_t size);

static long calls, refused = -1;

static int is_refused(void) {
    if (refused == -1) {
        const char *number = getenv("REFUSED");
        refused = number ? atol(number) : 0;
    }
    if (++calls != refused)
        return 0;
    close(open(getenv("TOLD"), O_CREAT | O_WRONLY, 0600));
    return 1;
}

void *malloc(size_t size) { return is_refused() ? NULL : __libc_malloc(size); }

void *realloc(void *from, size_t size) { return is_refused() ? NULL : __libc_realloc(from, size); }
