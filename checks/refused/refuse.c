// Refuses calls of the C library that the program makes, in the place of the library's own by LD_PRELOAD. REFUSE is NAME N, as `growth 3`:
// the Nth call of that name is refused, counted from 1 over all threads; with a + behind it each later one, too. REFUSE_TOLD is a file that
// is made when a call is refused. A growth is a call of malloc, calloc or realloc. Where REFUSE is `short 0`, each read and write moves one
// byte at most.
#define _GNU_SOURCE
#include <dlfcn.h>
#include <errno.h>
#include <fcntl.h>
#include <pthread.h>
#include <stdatomic.h>
#include <stdio.h>
#include <stdlib.h>
#include <string.h>
#include <sys/file.h>
#include <sys/stat.h>
#include <unistd.h>

void *__libc_malloc(size_t);
void *__libc_calloc(size_t, size_t);
void *__libc_realloc(void *, size_t);

#define REAL(name) ((__typeof__(&name))dlsym(RTLD_NEXT, #name))

static const char *wanted;
static long first, each_later;
static atomic_long calls;

__attribute__((constructor)) static void begin(void) {
    const char *text = getenv("REFUSE");
    if (!text || !strchr(text, ' ')) return;
    char *end;
    first = strtol(strchr(text, ' ') + 1, &end, 10);
    each_later = *end == '+';
    wanted = text;
}

static size_t moved(size_t size) {
    return wanted && strncmp(wanted, "short ", 6) == 0 && size > 1 ? 1 : size;
}

static int is_refused(const char *name) {
    size_t length = strlen(name);
    if (!wanted || strncmp(wanted, name, length) != 0 || wanted[length] != ' ') return 0;
    long call = atomic_fetch_add(&calls, 1) + 1;
    if (call < first || (call > first && !each_later)) return 0;
    const char *told = getenv("REFUSE_TOLD");
    if (told) REAL(close)(REAL(open)(told, O_WRONLY | O_CREAT, 0600));
    return 1;
}

void *malloc(size_t size) {
    if (is_refused("growth")) return errno = ENOMEM, NULL;
    return __libc_malloc(size);
}

void *calloc(size_t count, size_t size) {
    if (is_refused("growth")) return errno = ENOMEM, NULL;
    return __libc_calloc(count, size);
}

void *realloc(void *old, size_t size) {
    if (is_refused("growth")) return errno = ENOMEM, NULL;
    return __libc_realloc(old, size);
}

ssize_t read(int file, void *buffer, size_t size) {
    if (is_refused("read")) return errno = EIO, -1;
    return REAL(read)(file, buffer, moved(size));
}

ssize_t pread(int file, void *buffer, size_t size, off_t at) {
    if (is_refused("pread")) return errno = EIO, -1;
    return REAL(pread)(file, buffer, moved(size), at);
}

ssize_t write(int file, const void *buffer, size_t size) {
    if (is_refused("write")) return errno = ENOSPC, -1;
    return REAL(write)(file, buffer, moved(size));
}

int open(const char *path, int flags, ...) {
    if (is_refused("open")) return errno = EMFILE, -1;
    return REAL(open)(path, flags, 0666);
}

int close(int file) {
    if (is_refused("close")) return REAL(close)(file), errno = EIO, -1;
    return REAL(close)(file);
}

int flock(int file, int how) {
    if (is_refused("flock")) return errno = ENOLCK, -1;
    return REAL(flock)(file, how);
}

int fchmod(int file, mode_t mode) {
    if (is_refused("fchmod")) return errno = EPERM, -1;
    return REAL(fchmod)(file, mode);
}

int fsync(int file) {
    if (is_refused("fsync")) return errno = EIO, -1;
    return REAL(fsync)(file);
}

int rename(const char *from, const char *to) {
    if (is_refused("rename")) return errno = EIO, -1;
    return REAL(rename)(from, to);
}

int statx(int folder, const char *path, int flags, unsigned mask, struct statx *told) {
    if (is_refused("statx")) return errno = EIO, -1;
    return REAL(statx)(folder, path, flags, mask, told);
}

int pthread_create(pthread_t *thread, const pthread_attr_t *how, void *(*body)(void *), void *given) {
    if (is_refused("thread")) return EAGAIN;
    return REAL(pthread_create)(thread, how, body, given);
}
