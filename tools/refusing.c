/* Loaded into a built program (LD_PRELOAD), this refuses allocations of it that `.ci/refuse` names, and counts.
 *
 * An allocation is a call of malloc or realloc, or the start of a thread. Each setting is an environment variable:
 *   REFUSING_COUNTS  a file of four numbers of 8 bytes, which are kept: allocations, those refused, those after the cue, and
 *                    whether there was a cue
 *   REFUSING_FIRST   the first allocation that is refused, from 1; 0: none
 *   REFUSING_TIMES   how many are refused from there on
 *   REFUSING_BYTES   those of at least so many bytes are refused as well; 0: none
 * An allocation of just CUE bytes is the cue, by which a test asks that all that come after it are refused.
 * No header is read, so the compiler of the kit is enough.
 */
typedef unsigned long number;

extern void *__libc_malloc(number bytes);
extern void *__libc_realloc(void *block, number bytes);
extern void *dlsym(void *handle, const char *name);
extern char *getenv(const char *name);
extern number strtoul(const char *text, char **end, int base);
extern int open(const char *path, int flags, ...);
extern void *mmap(void *at, number length, int protection, int flags, int file, long offset);

enum { READ_AND_WRITE = 2, READABLE_AND_WRITABLE = 3, SHARED = 1, NO_THREAD = 11, ALLOCATIONS = 0, REFUSED = 1, AFTER_CUE = 2, CUED = 3 };
static const number CUE = 7654321;

static number *counts;
static number first, times, least;

static number setting(const char *name) {
    const char *text = getenv(name);
    return text ? strtoul(text, 0, 10) : 0;
}

__attribute__((constructor)) static void begin(void) {
    const char *path = getenv("REFUSING_COUNTS");
    int file = path ? open(path, READ_AND_WRITE) : -1;
    void *kept = file < 0 ? 0 : mmap(0, 32, READABLE_AND_WRITABLE, SHARED, file, 0);
    first = setting("REFUSING_FIRST");
    times = setting("REFUSING_TIMES");
    least = setting("REFUSING_BYTES");
    counts = (kept == (void *)-1) ? 0 : kept;
}

static int is_refused(number bytes) {
    if (!counts)
        return 0;
    number allocation = 1 + __atomic_fetch_add(&counts[ALLOCATIONS], 1, __ATOMIC_SEQ_CST);
    int is_after = __atomic_load_n(&counts[CUED], __ATOMIC_SEQ_CST) != 0;
    if (is_after)
        __atomic_fetch_add(&counts[AFTER_CUE], 1, __ATOMIC_SEQ_CST);
    if (bytes == CUE)
        __atomic_store_n(&counts[CUED], 1, __ATOMIC_SEQ_CST);
    int in_turn = first && allocation >= first && allocation - first < times;
    if (!in_turn && !is_after && !(least && bytes >= least))
        return 0;
    __atomic_fetch_add(&counts[REFUSED], 1, __ATOMIC_SEQ_CST);
    return 1;
}

void *malloc(number bytes) {
    return is_refused(bytes) ? 0 : __libc_malloc(bytes);
}

void *realloc(void *block, number bytes) {
    return is_refused(bytes) ? 0 : __libc_realloc(block, bytes);
}

int pthread_create(void *thread, const void *attributes, void *(*begins)(void *), void *given) {
    int (*next)(void *, const void *, void *(*)(void *), void *) = dlsym((void *)-1L, "pthread_create");
    return is_refused(0) ? NO_THREAD : next(thread, attributes, begins, given);
}
