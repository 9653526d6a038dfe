/* Refuses one growth or one thread start of a process: a library for LD_PRELOAD, which checks/refusals compiles.
 *
 * A growth is a call of malloc, calloc, realloc, aligned_alloc or posix_memalign, and a thread start one of
 * pthread_create; those before main are not counted. The variables REFUSE_GROWTH and REFUSE_START hold the number, from 1
 * on, of the growth and of the start that is refused; where one is missing, none is.
 *
 * The variable REFUSAL_NOTE names a file with room for the struct below, which the process writes as it goes, so that it is
 * whole however the process ends.
 */
#define _GNU_SOURCE
#include <dlfcn.h>
#include <errno.h>
#include <fcntl.h>
#include <pthread.h>
#include <stdatomic.h>
#include <stddef.h>
#include <stdint.h>
#include <stdlib.h>
#include <sys/auxv.h>
#include <sys/mman.h>
#include <unistd.h>

/* Where a growth was asked for that is not asked for by the program's own code. */
enum { BY_A_LIBRARY = 0, WITHIN_PTHREAD_CREATE = -1 };

/* What is told of the process. */
struct note {
    _Atomic int64_t growths;         /* how many growths there were */
    _Atomic int64_t starts;          /* how many thread starts there were */
    _Atomic int64_t refused_growths; /* 1 where a growth was refused */
    _Atomic int64_t refused_starts;  /* 1 where a thread start was refused */
    _Atomic int64_t place;           /* where the refused growth was asked for: an offset in the program, or as above */
};

extern void *__libc_malloc(size_t size);
extern void *__libc_calloc(size_t count, size_t size);
extern void *__libc_realloc(void *block, size_t size);
extern void *__libc_memalign(size_t alignment, size_t size);

typedef int start_call(pthread_t *, const pthread_attr_t *, void *(*)(void *), void *);

static struct note *note;
static start_call *real_start;
static int64_t growth_to_refuse, start_to_refuse;
static _Thread_local int starting;

/* The place of code that asked for a growth. */
static int64_t place_of(void *code) {
    Dl_info program, asking;
    if (starting)
        return WITHIN_PTHREAD_CREATE;
    if (!dladdr((void *)getauxval(AT_ENTRY), &program) || !dladdr(code, &asking) || asking.dli_fbase != program.dli_fbase)
        return BY_A_LIBRARY;
    return (int64_t)((char *)code - (char *)program.dli_fbase);
}

/* Counts a growth, and tells whether it is the one to refuse. */
static int refuses(void *code) {
    if (note == NULL || atomic_fetch_add(&note->growths, 1) + 1 != growth_to_refuse)
        return 0;
    note->refused_growths = 1;
    note->place = place_of(code);
    errno = ENOMEM;
    return 1;
}

void *malloc(size_t size) {
    return refuses(__builtin_return_address(0)) ? NULL : __libc_malloc(size);
}

void *calloc(size_t count, size_t size) {
    return refuses(__builtin_return_address(0)) ? NULL : __libc_calloc(count, size);
}

void *realloc(void *block, size_t size) {
    return refuses(__builtin_return_address(0)) ? NULL : __libc_realloc(block, size);
}

void *aligned_alloc(size_t alignment, size_t size) {
    return refuses(__builtin_return_address(0)) ? NULL : __libc_memalign(alignment, size);
}

int posix_memalign(void **block, size_t alignment, size_t size) {
    void *found = refuses(__builtin_return_address(0)) ? NULL : __libc_memalign(alignment, size);
    if (found == NULL)
        return ENOMEM;
    *block = found;
    return 0;
}

int pthread_create(pthread_t *thread, const pthread_attr_t *attributes, void *(*body)(void *), void *argument) {
    if (note != NULL && atomic_fetch_add(&note->starts, 1) + 1 == start_to_refuse) {
        note->refused_starts = 1;
        return EAGAIN;
    }
    starting = 1;
    int answer = real_start(thread, attributes, body, argument);
    starting = 0;
    return answer;
}

static int64_t number_in(const char *name) {
    const char *text = getenv(name);
    return text == NULL ? 0 : atoll(text);
}

/* Runs before main. From here on it counts. */
__attribute__((constructor)) static void begin(void) {
    const char *name = getenv("REFUSAL_NOTE");
    int file = name == NULL ? -1 : open(name, O_RDWR);
    real_start = (start_call *)dlsym(RTLD_NEXT, "pthread_create");
    growth_to_refuse = number_in("REFUSE_GROWTH");
    start_to_refuse = number_in("REFUSE_START");
    if (file < 0)
        return;
    void *room = mmap(NULL, sizeof(struct note), PROT_READ | PROT_WRITE, MAP_SHARED, file, 0);
    close(file);
    if (room != MAP_FAILED)
        note = room;
}
