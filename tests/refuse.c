/* Refuses requests for memory: the one that REFUSE_AT names, counted from 1, or, where REFUSE_ON is set, that and all
 * behind it; none where REFUSE_AT is not set. Each refusal writes a byte to the descriptor that REFUSE_TOLD names, and
 * each request one to that of REFUSE_ASKED.
 *
 * Ends the process at a step by which a file is written (it is made, written to, synced, renamed or removed): at the one
 * that END_AT names, before it is done, or, where END_HALF is set and it writes, when half of the bytes are written. Or
 * lets a step fail: the one that FAIL_AT names, and, where FAIL_ON is set, all behind it. Each step writes a byte to the
 * descriptor that STEPS_TOLD names. Loaded before the C library. */
#define _GNU_SOURCE
#include <errno.h>
#include <fcntl.h>
#include <signal.h>
#include <stdarg.h>
#include <stddef.h>
#include <stdlib.h>
#include <sys/syscall.h>
#include <unistd.h>

extern void *__libc_malloc(size_t);
extern void *__libc_calloc(size_t, size_t);
extern void *__libc_realloc(void *, size_t);
extern void *__libc_memalign(size_t, size_t);

static long asked, at = -1, on, told = -1, noted = -1;

static long number(const char *name, long otherwise) {
    const char *text = getenv(name);
    return text ? atol(text) : otherwise;
}

static void begin(void) {
    at = number("REFUSE_AT", 0);
    on = getenv("REFUSE_ON") != NULL;
    told = number("REFUSE_TOLD", -1);
    noted = number("REFUSE_ASKED", -1);
}

static void tell(long descriptor, const char *byte) {
    if (descriptor >= 0 && syscall(SYS_write, (int)descriptor, byte, (size_t)1) < 0) _exit(99);
}

static int is_refused(void) {
    if (at < 0) begin();
    asked++;
    tell(noted, "a");
    if (at == 0 || (on ? asked < at : asked != at)) return 0;
    tell(told, "r");
    errno = ENOMEM;
    return 1;
}

void *malloc(size_t size) { return is_refused() ? NULL : __libc_malloc(size); }
void *calloc(size_t count, size_t size) { return is_refused() ? NULL : __libc_calloc(count, size); }
void *realloc(void *old, size_t size) { return is_refused() ? NULL : __libc_realloc(old, size); }
void *memalign(size_t to, size_t size) { return is_refused() ? NULL : __libc_memalign(to, size); }
void *aligned_alloc(size_t to, size_t size) { return is_refused() ? NULL : __libc_memalign(to, size); }

int posix_memalign(void **made, size_t to, size_t size) {
    if (is_refused()) return ENOMEM;
    void *found = __libc_memalign(to, size);
    if (!found) return ENOMEM;
    *made = found;
    return 0;
}

static long steps, end_at = -1, fail_at, fail_on, end_half, steps_told;

static void end(void) {
    kill(getpid(), SIGKILL);
    for (;;) pause();
}

/* Counts a step. Gives 1 where it has to fail; where the process has to end in the middle of it, `half` is set. */
static int step(int *half) {
    if (end_at < 0) {
        end_at = number("END_AT", 0);
        end_half = getenv("END_HALF") != NULL;
        fail_at = number("FAIL_AT", 0);
        fail_on = getenv("FAIL_ON") != NULL;
        steps_told = number("STEPS_TOLD", -1);
    }
    steps++;
    tell(steps_told, "s");
    if (steps == end_at) {
        if (!half || !end_half) end();
        *half = 1;
    }
    if (fail_at == 0 || (fail_on ? steps < fail_at : steps != fail_at)) return 0;
    errno = EIO;
    return 1;
}

/* The standard outputs are no file. */
ssize_t write(int to, const void *bytes, size_t count) {
    int half = 0;
    if (to > 2 && step(&half)) return -1;
    if (half) {
        syscall(SYS_write, to, bytes, count / 2);
        end();
    }
    return syscall(SYS_write, to, bytes, count);
}

static int opened(const char *name, int how, mode_t mode) {
    if ((how & O_CREAT) && step(NULL)) return -1;
    return (int)syscall(SYS_openat, AT_FDCWD, name, how, mode);
}

static mode_t mode_of(int how, va_list more) { return how & O_CREAT ? va_arg(more, mode_t) : 0; }

int open64(const char *name, int how, ...) {
    va_list more;
    va_start(more, how);
    int file = opened(name, how, mode_of(how, more));
    va_end(more);
    return file;
}

int open(const char *name, int how, ...) {
    va_list more;
    va_start(more, how);
    int file = opened(name, how, mode_of(how, more));
    va_end(more);
    return file;
}

int fsync(int file) { return step(NULL) ? -1 : (int)syscall(SYS_fsync, file); }
int rename(const char *from, const char *to) { return step(NULL) ? -1 : (int)syscall(SYS_renameat2, AT_FDCWD, from, AT_FDCWD, to, 0); }
int unlink(const char *name) { return step(NULL) ? -1 : (int)syscall(SYS_unlinkat, AT_FDCWD, name, 0); }
