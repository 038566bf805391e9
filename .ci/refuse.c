/* Refuses memory allocations, and counts threads. Preloaded into a program, it replaces the C library's malloc, realloc and
 * pthread_create.
 *
 * In the environment:
 *   REFUSE_AT=N         refuses the program's N-th allocation, once
 *   REFUSE_COUNT=K      refuses K allocations in a row from that one on; 0: all from it on
 *   REFUSE_LOG=FILE     each refusal adds a byte to this file
 *   REFUSE_DELAY=SEED   delays threads at random at their allocations, so that their order varies
 *   LARGEST=BYTES       ends the program with SIGABRT, and a line on standard error, if one block is larger
 *   THREADS_LOG=FILE    each thread that starts adds a byte to this file
 *   WORKERS_LOG=FILE    each thread that makes WORK allocations adds a byte to this file
 * A test requests a refusal with blocks of special sizes, which without this library are ordinary blocks:
 *   MARK + n bytes, n > 0   from now on the n-th allocation is refused, once; MARK bytes: none
 *   ASK bytes               refused if an allocation was refused since the last mark */

/* The parts of Linux's C library used here: the kit's compiler comes without its headers. */
#define NULL ((void *)0)
#define RTLD_NEXT ((void *)-1l)
#define ENOMEM 12
#define O_WRONLY 01
#define O_APPEND 02000
typedef unsigned long size_t;
struct timespec { long tv_sec, tv_nsec; };
void *dlsym(void *, const char *);
char *getenv(const char *);
long atol(const char *);
unsigned long strtoul(const char *, char **, int);
int *__errno_location(void);
int open(const char *, int, ...);
long write(int, const void *, size_t);
int close(int);
int nanosleep(const struct timespec *, struct timespec *);
int sched_yield(void);
void _exit(int) __attribute__((noreturn));
void abort(void) __attribute__((noreturn));
#define errno (*__errno_location())

/* Threads share the variables below. */
#define LOAD(x) __atomic_load_n(&(x), __ATOMIC_SEQ_CST)
#define STORE(x, new) __atomic_store_n(&(x), new, __ATOMIC_SEQ_CST)
#define REPLACE(x, old, new) __atomic_compare_exchange_n(&(x), &(old), new, 1, __ATOMIC_SEQ_CST, __ATOMIC_SEQ_CST)

#define MARK 5000011ul
#define ASK 5100003ul
/* The longest delay of a thread. */
#define NANOSECONDS 200000
/* A thread that makes so many allocations does some work. */
#define WORK 1000

static void *(*next_malloc)(size_t);
static void *(*next_realloc)(void *, size_t);
/* A thread's handle is a number, and its attributes are passed on. */
typedef int (*creator)(unsigned long *, const void *, void *(*)(void *), void *);
static creator next_create;
static long to_last;  /* allocations up to the last refused one; 0: none is refused */
static long in_a_row; /* the number of refused ones */
static int endless;   /* there is no last one: all further ones are refused */
static long refusals;
static unsigned long largest; /* 0: blocks of any size */
static unsigned long draws; /* the state of the generator of delays; 0: no delays */

/* Refuses `count` allocations from the n-th on, or all from there on if `count` is 0. */
static void arm(long n, long count) {
    long more = count ? count : 1;
    STORE(to_last, 0);
    STORE(endless, count == 0);
    STORE(in_a_row, more);
    STORE(to_last, n > 0 ? n + more - 1 : 0);
}

__attribute__((constructor)) static void start(void) {
    const char *at = getenv("REFUSE_AT"), *count = getenv("REFUSE_COUNT"), *seed = getenv("REFUSE_DELAY");
    next_malloc = (void *(*)(size_t))dlsym(RTLD_NEXT, "malloc");
    next_realloc = (void *(*)(void *, size_t))dlsym(RTLD_NEXT, "realloc");
    next_create = (creator)dlsym(RTLD_NEXT, "pthread_create");
    if (at) arm(atol(at), count ? atol(count) : 1);
    if (getenv("LARGEST")) STORE(largest, strtoul(getenv("LARGEST"), NULL, 10));
    /* A factor spreads small seeds; a state of 0 would stay 0. */
    if (seed) STORE(draws, (strtoul(seed, NULL, 10) * 0x9e3779b97f4a7c15ul) | 1ul);
}

/* Adds a byte to the file that an environment variable names, if it is set. */
static void note(const char *word) {
    const char *log = getenv(word);
    int file = log ? open(log, O_WRONLY | O_APPEND) : -1;
    if (file >= 0) {
        if (write(file, ".", 1) < 0) _exit(99);
        close(file);
    }
}

/* Ends the program if a block is larger than the largest allowed. */
static void look_at(size_t size) {
    static const char why[] = "refuse: a block is larger than LARGEST\n";
    if (LOAD(largest) && size > LOAD(largest)) {
        if (write(2, why, sizeof why - 1) < 0) _exit(99);
        abort();
    }
}

/* Counts the allocations of this thread, and notes that it works at the WORK-th. */
static void count_work(void) {
    static __thread long made;
    if (++made == WORK) note("WORKERS_LOG");
}

/* Counts an allocation, and returns whether to refuse it. */
static int is_refused(void) {
    long left = LOAD(to_last);
    while (left > 0) {
        long after = left == 1 && LOAD(endless) ? 1 : left - 1;
        if (REPLACE(to_last, left, after)) {
            if (left > LOAD(in_a_row)) return 0;
            __atomic_add_fetch(&refusals, 1, __ATOMIC_SEQ_CST);
            note("REFUSE_LOG");
            errno = ENOMEM;
            return 1;
        }
    }
    return 0;
}

/* The next number of the generator, a xorshift. */
static unsigned long draw(void) {
    unsigned long last = LOAD(draws), next;
    do {
        next = last ^ (last << 13);
        next ^= next >> 7;
        next ^= next << 17;
    } while (!REPLACE(draws, last, next));
    return next;
}

/* Sometimes lets other threads run, or waits a little. */
static void hold_up(void) {
    unsigned long drawn;
    int error = errno;
    if (!LOAD(draws)) return;
    drawn = draw() >> 16;
    if (drawn % 16 == 0) {
        struct timespec pause = {0, (long)(drawn / 16 % NANOSECONDS)};
        nanosleep(&pause, NULL);
    } else if (drawn % 4 == 1) {
        sched_yield();
    }
    errno = error;
}

void *malloc(size_t size) {
    if (!next_malloc) start();
    if (size >= MARK && size < ASK) {
        STORE(refusals, 0);
        arm((long)(size - MARK), 1);
        return next_malloc(16);
    }
    if (size == ASK) return LOAD(refusals) ? NULL : next_malloc(16);
    look_at(size);
    count_work();
    hold_up();
    return is_refused() ? NULL : next_malloc(size);
}

void *realloc(void *block, size_t size) {
    if (!next_realloc) start();
    look_at(size);
    count_work();
    hold_up();
    return is_refused() ? NULL : next_realloc(block, size);
}

int pthread_create(unsigned long *thread, const void *how, void *(*run)(void *), void *given) {
    int error;
    if (!next_create) start();
    error = next_create(thread, how, run, given);
    if (!error) note("THREADS_LOG");
    return error;
}
