/* What the tests of plant.h share: memory between pages that may not be touched, messages from a fault, random numbers.
 * A test defines _DEFAULT_SOURCE before it includes anything. What not every test needs is inline. */
#include <signal.h>
#include <stdint.h>
#include <stdio.h>
#include <stdlib.h>
#include <string.h>
#include <sys/mman.h>
#include <unistd.h>

/* ---- memory ---- */

static size_t page;

/* To be called first; on_fault gets control when a guard page is touched or an input written. */
static void start_guards(void (*on_fault)(int))
{
    page = (size_t)sysconf(_SC_PAGESIZE);
    signal(SIGSEGV, on_fault);
    signal(SIGBUS, on_fault);
}

static void *must_map(void *at, size_t size, int rights, int flags, int file)
{
    void *p = mmap(at, size, rights, flags, file, 0);

    if (p == MAP_FAILED) {
        perror("mmap");
        exit(2);
    }
    return p;
}

/* Whole pages that may not be touched yet, between two that never may. */
static uint8_t *guarded(size_t size)
{
    uint8_t *p = must_map(NULL, size + 2 * page, PROT_NONE, MAP_PRIVATE | MAP_ANONYMOUS, -1);

    return p + page;
}

/* Two views of the same whole pages: what is lent, read only between guards, and what is filled. */
static inline void make_input(size_t size, uint8_t **lent, uint8_t **filled)
{
    FILE *f = tmpfile();

    if (!f || ftruncate(fileno(f), (long)size) != 0) {
        perror("tmpfile");
        exit(2);
    }
    *lent = must_map(guarded(size), size, PROT_READ, MAP_SHARED | MAP_FIXED, fileno(f));
    *filled = must_map(NULL, size, PROT_READ | PROT_WRITE, MAP_SHARED, fileno(f));
}

/* Whole pages to be lent for writing, between guards. */
static inline uint8_t *make_output(size_t size)
{
    return must_map(guarded(size), size, PROT_READ | PROT_WRITE, MAP_PRIVATE | MAP_ANONYMOUS | MAP_FIXED, -1);
}

static inline void *must_have(size_t size)
{
    void *p = malloc(size);

    if (!p) {
        perror("malloc");
        exit(2);
    }
    return p;
}

/* ---- messages from a fault ---- */

static void put(const char *text)
{
    if (write(STDOUT_FILENO, text, strlen(text)) < 0)
        _exit(1);
}

static void put_number(unsigned long long x)
{
    char text[24];
    int i = sizeof text - 1;

    text[i] = 0;
    do
        text[--i] = (char)('0' + x % 10);
    while (x /= 10);
    put(text + i);
}

/* ---- random numbers ---- */

static uint64_t state;

/* splitmix64 */
static uint64_t draw(void)
{
    uint64_t z = state += 0x9e3779b97f4a7c15u;

    z = (z ^ (z >> 30)) * 0xbf58476d1ce4e5b9u;
    z = (z ^ (z >> 27)) * 0x94d049bb133111ebu;
    return z ^ (z >> 31);
}

/* 0 to n - 1 */
static int pick(int n)
{
    return (int)(draw() % (uint64_t)n);
}

/* one in n */
static int chance(int n)
{
    return pick(n) == 0;
}

/* ---- the start of a test ---- */

static unsigned long long seed = 1, rounds;

/* Reads seed and rounds, prints them, and watches for faults. */
static void start_test(int argc, char **argv, unsigned long long usual_rounds, void (*on_fault)(int))
{
    rounds = usual_rounds;
    if (argc > 1)
        seed = strtoull(argv[1], NULL, 10);
    if (argc > 2)
        rounds = strtoull(argv[2], NULL, 10);
    setvbuf(stdout, NULL, _IOLBF, 0);
    printf("seed %llu, rounds %llu\n", seed, rounds);
    state = seed;
    start_guards(on_fault);
}
