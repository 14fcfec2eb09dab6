/* Replaces the allocation functions of the C library and makes allocations fail as the tests of `cedar_alloc_failures` request.
   A request of COMMANDS bytes or more is a command of the tests. It also counts the allocated blocks, so that a test can check
   that it freed all its memory. `tools/alloc-failures` builds it and preloads it. No crate contains it, and no program is linked with it. */
typedef unsigned long size;
void *__libc_malloc(size);
void *__libc_calloc(size, size);
void *__libc_realloc(void *, size);
void __libc_free(void *);

#define COMMANDS (1UL << 62)
#define FAIL_EVERY (COMMANDS + (1UL << 33))
#define STOP_FAILING (COMMANDS + (1UL << 34))
#define IS_LOADED (COMMANDS + (1UL << 35))
#define COUNT (COMMANDS + (1UL << 36))
#define IS_AS_COUNTED (COMMANDS + (1UL << 37))

static int is_armed, fails_every, has_failed;
static size remaining;
static long blocks, counted;

static void *count_block(void *block) {
    if (block) blocks++;
    return block;
}

static void *run_command(size n) {
    if (n == IS_LOADED) return count_block(__libc_malloc(1));
    if (n == COUNT) {
        counted = blocks;
        return 0;
    }
    if (n == IS_AS_COUNTED) return blocks == counted ? count_block(__libc_malloc(1)) : 0;
    if (n == STOP_FAILING) {
        is_armed = 0;
        return has_failed ? count_block(__libc_malloc(1)) : 0;
    }
    is_armed = 1;
    has_failed = 0;
    fails_every = n == FAIL_EVERY;
    remaining = n - COMMANDS;
    return 0;
}

static int must_fail(void) {
    if (!is_armed || (!fails_every && --remaining != 0)) return 0;
    has_failed = 1;
    return 1;
}

void *malloc(size n) {
    if (n >= COMMANDS) return run_command(n);
    return must_fail() ? 0 : count_block(__libc_malloc(n));
}

void *calloc(size count, size n) { return must_fail() ? 0 : count_block(__libc_calloc(count, n)); }

void *realloc(void *at, size n) {
    if (must_fail()) return 0;
    void *block = __libc_realloc(at, n);
    return at ? block : count_block(block);
}

void free(void *at) {
    if (at) blocks--;
    __libc_free(at);
}
