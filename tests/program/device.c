// Preloaded into the program by failing.sh: one device takes or gives so many bytes, and then fails.
// DEVICE is `out` (standard output), `proof` (any other file that is written) or `text` (what is read), DEVICE_AT the number
// of bytes, DEVICE_FAILS `error` or `none` (0 bytes are taken), or `error once` or `none once`, after which it works as it should.
// The file DEVICE_MARK has a letter for each failure.
#define _GNU_SOURCE
#include <dlfcn.h>
#include <errno.h>
#include <fcntl.h>
#include <stdlib.h>
#include <string.h>
#include <sys/syscall.h>
#include <unistd.h>

static long left = -1;
static int is_mended; // it failed once, and works again

static int is_device(const char *device) {
    const char *name = getenv("DEVICE");
    if (!name || strcmp(name, device) != 0) {
        return 0;
    }
    if (left == -1) {
        left = atol(getenv("DEVICE_AT"));
    }
    return 1;
}

static ssize_t fail(void) {
    const char *mark = getenv("DEVICE_MARK");
    int file = mark ? open(mark, O_WRONLY | O_CREAT | O_APPEND, 0600) : -1;
    if (file >= 0) {
        syscall(SYS_write, file, "x", 1);
        close(file);
    }
    const char *how = getenv("DEVICE_FAILS");
    is_mended = how && strstr(how, "once");
    if (how && strncmp(how, "none", 4) == 0) {
        return 0;
    }
    errno = EIO;
    return -1;
}

static size_t most(size_t count) {
    return count < (size_t)left ? count : (size_t)left;
}

ssize_t write(int file, const void *bytes, size_t count) {
    ssize_t (*real)(int, const void *, size_t) = (ssize_t (*)(int, const void *, size_t))dlsym(RTLD_NEXT, "write");
    if (file == 2 || count == 0 || is_mended || !is_device(file == 1 ? "out" : "proof")) {
        return real(file, bytes, count);
    }
    ssize_t taken = left == 0 ? fail() : real(file, bytes, most(count));
    left -= taken > 0 ? taken : 0;
    return taken;
}

ssize_t read(int file, void *bytes, size_t count) {
    ssize_t (*real)(int, void *, size_t) = (ssize_t (*)(int, void *, size_t))dlsym(RTLD_NEXT, "read");
    if (count == 0 || is_mended || !is_device("text")) {
        return real(file, bytes, count);
    }
    ssize_t given = left == 0 ? fail() : real(file, bytes, most(count));
    left -= given > 0 ? given : 0;
    return given;
}
