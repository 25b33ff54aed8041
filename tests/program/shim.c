// A library that makes the Nth memory request fail, the Nth read, write, sync or other call on a file fail, the Nth
// sync fail on a full disk, each sync of a folder fail with error N, the Nth read or write move one byte, answers each
// lock as a file system that has none, or runs SHIM_RUN before the Nth opening, the Nth sync or the Nth link that is
// read: by SHIM_MODE and SHIM_AT. How many there were goes into SHIM_COUNT's file.
#define _GNU_SOURCE
#include <dlfcn.h>
#include <errno.h>
#include <fcntl.h>
#include <stdarg.h>
#include <stdio.h>
#include <stdlib.h>
#include <string.h>
#include <sys/file.h>
#include <sys/stat.h>
#include <sys/types.h>
#include <unistd.h>
extern void *__libc_malloc(size_t), *__libc_calloc(size_t, size_t), *__libc_realloc(void *, size_t);
extern void *__libc_memalign(size_t, size_t);
static long at, count;
static int what;
__attribute__((constructor)) static void begin(void) {
    const char *mode = getenv("SHIM_MODE"), *n = getenv("SHIM_AT");
    at = n ? atol(n) : 0;
    what = mode ? mode[0] : 0;
}
__attribute__((destructor)) static void end(void) {
    const char *to = getenv("SHIM_COUNT");
    what = 0;
    FILE *f = to ? fopen(to, "w") : NULL;
    if (f) { fprintf(f, "%ld\n", count); fclose(f); }
}
static int strikes(int kind) { return what == kind && ++count == at; }
#define FAIL(kind, error, answer) do { if (strikes(kind)) { errno = error; return answer; } } while (0)
#define REAL(f) static __typeof__(f) *real; if (!real) real = dlsym(RTLD_NEXT, #f)
#define RUN(kind) do { if (strikes(kind)) { unsetenv("LD_PRELOAD"); if (system(getenv("SHIM_RUN"))) abort(); } } while (0)
#define SOME(n) do { FAIL('f', EIO, -1); if ((n) > 1 && strikes('s')) n = 1; } while (0)
void *malloc(size_t n) { FAIL('a', ENOMEM, 0); return __libc_malloc(n); }
void *calloc(size_t n, size_t m) { FAIL('a', ENOMEM, 0); return __libc_calloc(n, m); }
void *realloc(void *p, size_t n) { FAIL('a', ENOMEM, 0); return __libc_realloc(p, n); }
void *aligned_alloc(size_t a, size_t n) { FAIL('a', ENOMEM, 0); return __libc_memalign(a, n); }
int posix_memalign(void **p, size_t a, size_t n) {
    FAIL('a', ENOMEM, ENOMEM);
    *p = __libc_memalign(a, n);
    return *p ? 0 : ENOMEM;
}
ssize_t read(int d, void *b, size_t n) { REAL(read); SOME(n); return real(d, b, n); }
ssize_t write(int d, const void *b, size_t n) { REAL(write); SOME(n); return real(d, b, n); }
ssize_t pread(int d, void *b, size_t n, off_t o) { REAL(pread); SOME(n); return real(d, b, n, o); }
ssize_t pwrite(int d, const void *b, size_t n, off_t o) { REAL(pwrite); SOME(n); return real(d, b, n, o); }
ssize_t pread64(int d, void *b, size_t n, off64_t o) { REAL(pread64); SOME(n); return real(d, b, n, o); }
ssize_t pwrite64(int d, const void *b, size_t n, off64_t o) { REAL(pwrite64); SOME(n); return real(d, b, n, o); }
int ftruncate(int d, off_t n) { REAL(ftruncate); FAIL('f', EIO, -1); return real(d, n); }
int ftruncate64(int d, off64_t n) { REAL(ftruncate64); FAIL('f', EIO, -1); return real(d, n); }
int statx(int d, const char *p, int g, unsigned m, struct statx *s) {
    REAL(statx);
    FAIL('f', EIO, -1);
    return real(d, p, g, m, s);
}
off_t lseek(int d, off_t o, int w) { REAL(lseek); FAIL('f', EIO, -1); return real(d, o, w); }
int open(const char *p, int how, ...) {
    REAL(open);
    va_list rest;
    va_start(rest, how);
    mode_t bits = how & O_CREAT ? va_arg(rest, mode_t) : 0;
    va_end(rest);
    RUN('b');
    return real(p, how, bits);
}
static int is_folder(int d) { struct stat s; return fstat(d, &s) == 0 && S_ISDIR(s.st_mode); }
int fsync(int d) {
    REAL(fsync);
    FAIL('f', EIO, -1);
    FAIL('d', ENOSPC, -1);
    RUN('p');
    if (what == 'o' && is_folder(d)) { errno = (int)at; return -1; }
    return real(d);
}
ssize_t readlink(const char *p, char *b, size_t n) { REAL(readlink); RUN('l'); return real(p, b, n); }
int flock(int d, int how) {
    REAL(flock);
    if (what == 'n') { errno = EOPNOTSUPP; return -1; }
    FAIL('f', EIO, -1);
    return real(d, how);
}
