/* Refuses one call of a program to the C library, or each from one on. For LD_PRELOAD.

   REFUSE_CALL    malloc, read, write, open or thread: the kind of call that is counted
   REFUSE_AT      the call of that kind that is refused, from 1 on; 0 or nothing: none
   REFUSE_ON      if set, each later call is refused as well
   REFUSE_EVERY   how many calls it is from a refused one to the next refused one
   REFUSE_SHORT   how many bytes a read or write moves at most in place of failing
   REFUSE_BREAK   if set, a read or write fails as one that a signal broke off
   REFUSE_KILL    if set, the program is killed at that read or write, with REFUSE_SHORT after it moved so many bytes
   REFUSE_PAUSE   the milliseconds that a read or write waits in place of failing
   REFUSE_FILE    if set, only reads and writes of files whose names end so are counted
   REFUSE_COUNTS  the file that says at the program's end how many calls there were, and how many were refused

   Only calls from the program's own code count, none from the C library's. */
#define _GNU_SOURCE
#include <dlfcn.h>
#include <errno.h>
#include <fcntl.h>
#include <link.h>
#include <pthread.h>
#include <signal.h>
#include <stdarg.h>
#include <stdatomic.h>
#include <stdio.h>
#include <stdlib.h>
#include <string.h>
#include <sys/syscall.h>
#include <time.h>
#include <unistd.h>

enum kind { NONE, MALLOC, READ, WRITE, OPEN, THREAD };
static const char *const names[] = {"", "malloc", "read", "write", "open", "thread"};
static const int errors[] = {0, ENOMEM, EIO, ENOSPC, EMFILE, EAGAIN};

static enum kind kind;
static long at, every;
static size_t most;
static int goes_on, kills, pause_ms, error;
static const char *file_name;
static uintptr_t code_start, code_end;
static _Atomic long calls, refused;

void *__libc_malloc(size_t), *__libc_calloc(size_t, size_t), *__libc_realloc(void *, size_t), *__libc_memalign(size_t, size_t);

/* The first object that is listed is the program. */
static int find_code(struct dl_phdr_info *object, size_t size, void *unused)
{
    const ElfW(Phdr) *part = object->dlpi_phdr, *end = part + object->dlpi_phnum;
    while (part < end && !(part->p_type == PT_LOAD && part->p_flags & PF_X))
        part++;
    code_start = object->dlpi_addr + part->p_vaddr;
    code_end = code_start + part->p_memsz;
    return 1;
}

__attribute__((constructor)) static void start(void)
{
    const char *call = getenv("REFUSE_CALL"), *number = getenv("REFUSE_AT");
    at = number ? atol(number) : 0;
    goes_on = getenv("REFUSE_ON") != NULL;
    every = getenv("REFUSE_EVERY") ? atol(getenv("REFUSE_EVERY")) : 0;
    most = getenv("REFUSE_SHORT") ? atol(getenv("REFUSE_SHORT")) : 0;
    kills = getenv("REFUSE_KILL") != NULL;
    pause_ms = getenv("REFUSE_PAUSE") ? atoi(getenv("REFUSE_PAUSE")) : 0;
    file_name = getenv("REFUSE_FILE");
    dl_iterate_phdr(find_code, NULL);
    for (enum kind k = MALLOC; call && k <= THREAD; k++)
        if (!strcmp(call, names[k])) {
            error = getenv("REFUSE_BREAK") ? EINTR : errors[k];
            kind = k;
        }
}

__attribute__((destructor)) static void tell(void)
{
    const char *file = getenv("REFUSE_COUNTS");
    int to = file ? syscall(SYS_openat, AT_FDCWD, file, O_WRONLY | O_CREAT | O_TRUNC, 0666) : -1;
    if (to >= 0) {
        char text[64];
        int length = snprintf(text, sizeof text, "%ld %ld\n", calls, refused);
        syscall(SYS_write, to, text, length);
        syscall(SYS_close, to);
    }
}

static int is_refused(enum kind k, void *from)
{
    if (k != kind || (uintptr_t)from < code_start || (uintptr_t)from >= code_end)
        return 0;
    long call = ++calls;
    if (!at || (every ? call < at || (call - at) % every : goes_on ? call < at : call != at))
        return 0;
    refused++;
    errno = error;
    return 1;
}

#define REFUSED(k) is_refused(k, __builtin_return_address(0))

void *malloc(size_t size) { return REFUSED(MALLOC) ? NULL : __libc_malloc(size); }
void *calloc(size_t count, size_t size) { return REFUSED(MALLOC) ? NULL : __libc_calloc(count, size); }
void *realloc(void *old, size_t size) { return REFUSED(MALLOC) ? NULL : __libc_realloc(old, size); }
void *memalign(size_t align, size_t size) { return REFUSED(MALLOC) ? NULL : __libc_memalign(align, size); }
void *aligned_alloc(size_t align, size_t size) { return REFUSED(MALLOC) ? NULL : __libc_memalign(align, size); }

int posix_memalign(void **to, size_t align, size_t size)
{
    void *made = REFUSED(MALLOC) ? NULL : __libc_memalign(align, size);
    if (made)
        *to = made;
    return made ? 0 : ENOMEM;
}

static int is_named(int file)
{
    char link[64], name[4096];
    snprintf(link, sizeof link, "/proc/self/fd/%d", file);
    ssize_t size = readlink(link, name, sizeof name), last = strlen(file_name);
    return size >= last && !memcmp(name + size - last, file_name, last);
}

static ssize_t moved(long call, int is_refused, int file, const void *bytes, size_t length)
{
    if (!is_refused)
        return syscall(call, file, bytes, length);
    if (pause_ms) {
        struct timespec wait = {pause_ms / 1000, pause_ms % 1000 * 1000000L};
        nanosleep(&wait, NULL);
        return syscall(call, file, bytes, length);
    }
    if (!most && !kills)
        return -1;
    ssize_t count = most ? syscall(call, file, bytes, length < most ? length : most) : 0;
    if (kills)
        syscall(SYS_kill, getpid(), SIGKILL);
    return count;
}

#define REFUSED_OF(k, file) ((!file_name || is_named(file)) && REFUSED(k))

ssize_t read(int file, void *to, size_t length) { return moved(SYS_read, REFUSED_OF(READ, file), file, to, length); }

ssize_t write(int file, const void *from, size_t length) { return moved(SYS_write, REFUSED_OF(WRITE, file), file, from, length); }

int openat(int folder, const char *path, int flags, ...)
{
    va_list rest;
    va_start(rest, flags);
    int mode = va_arg(rest, int);
    va_end(rest);
    return REFUSED(OPEN) ? -1 : syscall(SYS_openat, folder, path, flags, mode);
}

int open(const char *path, int flags, ...)
{
    va_list rest;
    va_start(rest, flags);
    int mode = va_arg(rest, int);
    va_end(rest);
    return REFUSED(OPEN) ? -1 : syscall(SYS_openat, AT_FDCWD, path, flags, mode);
}

int pthread_create(pthread_t *made, const pthread_attr_t *with, void *(*body)(void *), void *word)
{
    if (REFUSED(THREAD))
        return error;
    int (*real)(pthread_t *, const pthread_attr_t *, void *(*)(void *), void *) = dlsym(RTLD_NEXT, "pthread_create");
    return real(made, with, body, word);
}

/* Programs that end without the destructors. */
void _exit(int status)
{
    tell();
    syscall(SYS_exit_group, status);
    __builtin_unreachable();
}

void _Exit(int status) { _exit(status); }
