// Preloaded into the program by memory.sh: refuses the REFUSE_AT-th allocation, and leaves the file REFUSE_MARK where it did.
#include <errno.h>
#include <fcntl.h>
#include <stddef.h>
#include <stdlib.h>
#include <unistd.h>

void *__libc_malloc(size_t size);
void *__libc_realloc(void *block, size_t size);

static int refused(void) {
    static long left = -1;
    if (left == -1) {
        const char *at = getenv("REFUSE_AT");
        left = at ? atol(at) : 0;
    }
    if (left == 0 || --left > 0) {
        return 0;
    }
    const char *mark = getenv("REFUSE_MARK");
    int file = mark ? open(mark, O_WRONLY | O_CREAT, 0600) : -1;
    if (file >= 0) {
        close(file);
    }
    errno = ENOMEM;
    return 1;
}

void *malloc(size_t size) {
    return refused() ? NULL : __libc_malloc(size);
}

void *realloc(void *block, size_t size) {
    return refused() ? NULL : __libc_realloc(block, size);
}
