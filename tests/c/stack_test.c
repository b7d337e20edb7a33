/* The stack that each call of plant.h needs: it runs on a stack of its own, painted before, with a page below that may not be
 * touched; then on one of just that size, which has to do, and on one 256 bytes smaller, which must not. Inputs are the longest
 * codes and tables and the largest registers, sound and not. Answers are compared too. A call may use LIMIT bytes, plant_label
 * LABEL_LIMIT, a question on a register or an edit of one REGISTER_LIMIT. These run too on a thread with no more than that
 * above the least stack. At the end stands the most that each call took; with an argument only that is printed. */
#define _DEFAULT_SOURCE
#include <limits.h>
#include <pthread.h>
#include <stdint.h>
#include <stdio.h>
#include <stdlib.h>
#include <string.h>
#include <sys/mman.h>
#include <sys/wait.h>
#include <ucontext.h>
#include <unistd.h>

#include "plant.h"

enum { STACK = 131072, LIMIT = 1024, LABEL_LIMIT = 49152, REGISTER_LIMIT = 65536, PAINT = 0xA5, STEP = 256 };

static uint8_t digits[PLANT_LONGEST], left[PLANT_FIELD], right[PLANT_FIELD], made[PLANT_FIELD], read_back[PLANT_LONGEST];
static uint8_t upper[PLANT_LABEL], lower[PLANT_LABEL];
static uint32_t table[PLANT_ROW * PLANT_ROWS];
static uint8_t reg[PLANT_HEADER + PLANT_ENTRY * PLANT_ROWS], kept[sizeof reg];
static size_t room = sizeof reg;
static uint32_t row, target; /* the row that is made, the target of an edit */
static int64_t answer;
static void (*under_way)(void); /* in a thread */
static const char *input;       /* what the calls are made with */
static int table_only;

static void nothing(void) { answer = 0; }
static void order(void) { answer = plant_order(upper, sizeof upper, lower, sizeof lower); }
static void above(void) { answer = plant_above(upper, sizeof upper, lower, sizeof lower); }
static void parent(void) { answer = plant_parent(upper, sizeof upper, lower, sizeof lower); }
static void sibling(void) { answer = plant_sibling(lower, sizeof lower, lower, sizeof lower); }
static void pack(void) { answer = plant_pack(digits, sizeof digits, made, sizeof made); }
static void unpack(void) { answer = plant_unpack(left, sizeof left, read_back, sizeof read_back); }
static void between(void) { answer = plant_between(left, sizeof left, right, sizeof right, made, sizeof made); }
static void label(void) { answer = plant_label(table, PLANT_ROW * PLANT_ROWS, reg, room); }
static void place(void) { answer = plant_place(reg, sizeof reg, PLANT_ROWS); }
static void depth(void) { answer = plant_depth(reg, sizeof reg, PLANT_ROWS); }
static void distance(void) { answer = plant_distance(reg, sizeof reg, PLANT_ROWS, 1); }
static void absent(void) { answer = plant_distance(reg, sizeof reg, PLANT_ROWS, 0); }

/* Each edit begins with the register that was kept. */
static uint8_t *again(void) { return memcpy(reg, kept, sizeof reg); }
static void insert_first(void) { answer = plant_insert_first(again(), sizeof reg, target, PLANT_ROWS + 1, 0); }
static void insert_last(void) { answer = plant_insert_last(again(), sizeof reg, target, PLANT_ROWS + 1, 0); }
static void insert_before(void) { answer = plant_insert_before(again(), sizeof reg, target, PLANT_ROWS + 1, 0); }
static void insert_after(void) { answer = plant_insert_after(again(), sizeof reg, target, PLANT_ROWS + 1, 0); }
static void delete(void) { answer = plant_delete(again(), sizeof reg, target); }

static void *in_thread(void *unused)
{
    (void)unused;
    under_way();
    return NULL;
}

static const struct call {
    const char *name;
    void (*run)(void);
    int64_t answer, refusal;
} calls[] = {
    {"plant_pack", pack, 127, PLANT_NO_CODE},       {"plant_unpack", unpack, 126, PLANT_NO_CODE},
    {"plant_between", between, 127, PLANT_NO_CODE}, {"plant_order", order, -1, PLANT_NO_LABEL},
    {"plant_above", above, 1, PLANT_NO_LABEL},      {"plant_parent", parent, 1, PLANT_NO_LABEL},
    {"plant_sibling", sibling, 0, PLANT_NO_LABEL},
};

/* Runs a function on a fresh stack and answers how many of its bytes were altered. */
static size_t used_of(size_t size, void (*run)(void))
{
    static ucontext_t here, there;
    size_t page = (size_t)sysconf(_SC_PAGESIZE);
    uint8_t *all = mmap(NULL, page + size, PROT_READ | PROT_WRITE, MAP_PRIVATE | MAP_ANONYMOUS, -1, 0);
    size_t untouched = 0;

    if (all == MAP_FAILED || mprotect(all, page, PROT_NONE) != 0 || getcontext(&there) != 0)
        exit(2);
    memset(all + page, PAINT, size);
    there.uc_stack.ss_sp = all + page;
    there.uc_stack.ss_size = size;
    there.uc_link = &here;
    makecontext(&there, run, 0);
    if (swapcontext(&here, &there) != 0)
        exit(2);
    while (untouched < size && all[page + untouched] == PAINT)
        untouched++;
    munmap(all, page + size);
    return size - untouched;
}

static size_t used(void (*run)(void)) { return used_of(STACK, run); }

/* Whether a function ends on a stack of that size, in a process of its own. */
static int ends_on(size_t size, void (*run)(void))
{
    pid_t child = fork();
    int status;

    if (child == 0) {
        used_of(size, run);
        _exit(0);
    }
    if (child < 0 || waitpid(child, &status, 0) != child || (WIFEXITED(status) && WEXITSTATUS(status) != 0))
        exit(2);
    return WIFEXITED(status);
}

/* A code of n digits: ones, then the last. */
static void code(uint8_t *field, size_t n, uint8_t last)
{
    uint8_t d[PLANT_LONGEST];

    memset(d, 1, sizeof d);
    d[n - 1] = last;
    if (plant_pack(d, n, field, PLANT_FIELD) != (int32_t)n)
        exit(2);
}

/* Writes a label's start and end; its parent start is left as it is. */
static void make_label(uint8_t *to, size_t start, uint8_t start_last, size_t end, uint8_t end_last)
{
    code(to, start, start_last);
    code(to + PLANT_FIELD, end, end_last);
}

/* The longest table of a shape, all identities different. */
static void make_table(uint32_t (*depth)(uint32_t))
{
    for (uint32_t i = 0; i < PLANT_ROWS; i++) {
        row = i;
        table[PLANT_ROW * i] = i + 1;
        table[PLANT_ROW * i + 2] = i == 0 ? 0 : depth(table[PLANT_ROW * (i - 1) + 2]);
    }
}

static uint32_t flat(uint32_t previous) { return previous > 0 ? previous : 1; }
static uint32_t chains(uint32_t previous) { return previous < 63 ? previous + 1 : 1; }
static uint32_t last_deepest(uint32_t previous) { return row <= PLANT_ROWS - 63 ? 1 : chains(previous); }
static uint32_t random_depth(uint32_t previous) { return 1 + (uint32_t)rand() % (previous < 63 ? previous + 1 : 63); }

/* The most that each call took, and with what */
static struct most {
    const char *call, *input;
    size_t bytes, limit;
} most[16];

static void keep_most(const char *call, size_t bytes, size_t limit)
{
    struct most *m = most;

    while (m->call != NULL && strcmp(m->call, call) != 0)
        if (++m == most + sizeof most / sizeof most[0])
            exit(2);
    if (m->call == NULL || bytes > m->bytes)
        *m = (struct most){call, input, bytes, limit};
}

static void print_most(void)
{
    printf("%-20s %7s %8s   %s\n", "call", "bytes", "allowed", "most with");
    for (struct most *m = most; m < most + sizeof most / sizeof most[0] && m->call != NULL; m++)
        printf("%-20s %7zu %8zu   %s\n", m->call, m->bytes, m->limit, m->input);
}

/* Runs a call and answers whether its answer or its stack is wrong. */
static int wrong(const char *name, void (*run)(void), int64_t expected, size_t limit)
{
    size_t base = used(nothing), n, size;
    int fits;

    run(); /* so that the linker's own work at a first call is not counted */
    answer = INT64_MIN;
    n = used(run) - base;
    size = (base + n + 63) / 64 * 64;
    fits = ends_on(size, run) && (size <= base + STEP || !ends_on(size - STEP, run));
    keep_most(name, n, limit);
    if (!table_only)
        printf("%s, %s: %zu bytes of stack\n", name, input, n);
    if (answer != expected)
        printf("%s, %s: %lld, not %lld\n", name, input, (long long)answer, (long long)expected);
    if (n == 0 || n > limit)
        printf("%s, %s: %zu bytes, not within 1 and %zu\n", name, input, n, limit);
    if (!fits)
        printf("%s, %s: %zu bytes are not the least stack\n", name, input, n);
    return answer != expected || n == 0 || n > limit || !fits;
}

static int wrong_label(const char *with, int64_t expected)
{
    input = with;
    return wrong("plant_label", label, expected, LABEL_LIMIT);
}

/* On a thread with `limit` bytes above the least stack */
static int wrong_in_thread(const char *name, void (*run)(void), int64_t expected, size_t limit)
{
    pthread_attr_t attributes;
    pthread_t thread;

    answer = INT64_MIN;
    under_way = run;
    if (pthread_attr_init(&attributes) != 0 || pthread_attr_setstacksize(&attributes, (size_t)PTHREAD_STACK_MIN + limit) != 0
        || pthread_create(&thread, &attributes, in_thread, NULL) != 0 || pthread_join(thread, NULL) != 0)
        exit(2);
    if (!table_only || answer != expected)
        printf("%s, in a thread of %zu bytes of stack: %lld\n", name, (size_t)PTHREAD_STACK_MIN + limit, (long long)answer);
    return answer != expected;
}

/* The three questions, on the last entry and the first. */
static int wrong_questions(const char *shape, int64_t place_of_last, int64_t depth_of_last, int64_t from_last_to_first)
{
    int bad = 0;

    input = shape;
    bad |= wrong("plant_place", place, place_of_last, REGISTER_LIMIT);
    bad |= wrong("plant_depth", depth, depth_of_last, REGISTER_LIMIT);
    bad |= wrong("plant_distance", distance, from_last_to_first, REGISTER_LIMIT);
    return bad;
}

/* A register of n entries, each the child of the one before, with long codes; the last has the last identity. */
static void make_chain(size_t n)
{
    memset(reg, 0, sizeof reg);
    reg[0] = (uint8_t)n;
    for (size_t i = 0; i < n; i++) {
        uint8_t *at = reg + PLANT_HEADER + PLANT_ENTRY * i;
        at[0] = i < n - 1 ? (uint8_t)(i + 1) : PLANT_ROWS % 256;
        at[1] = i < n - 1 ? 0 : PLANT_ROWS / 256;
        make_label(at + 8, PLANT_LONGEST - i, 2, i / 2 + 1, i % 2 ? 2 : 3);
        if (i > 0)
            memcpy(at + 8 + 2 * PLANT_FIELD, at + 8 - PLANT_ENTRY, PLANT_FIELD);
    }
}

static int wrong_registers(void)
{
    uint8_t *last = reg + PLANT_HEADER + PLANT_ENTRY * (PLANT_ROWS - 1);
    const int64_t far = PLANT_ROWS - 1, refused = PLANT_NO_REGISTER;
    int bad = 0;

    make_table(flat);
    label();
    bad |= wrong_questions("flat", far, 1, -far);
    make_table(random_depth);
    label();
    bad |= wrong_questions("random", far, table[PLANT_ROW * PLANT_ROWS - 1], -far);
    make_table(chains);
    table[PLANT_ROW * PLANT_ROWS - 1] = 1; /* a last entry beside the chains, so that all of them are gone through */
    label();
    bad |= wrong_questions("chains", far, 1, -far);
    make_table(last_deepest);
    label();
    bad |= wrong_questions("the last entry at depth 63", far, 63, -far);
    bad |= wrong_in_thread("plant_place", place, far, REGISTER_LIMIT);
    bad |= wrong_in_thread("plant_depth", depth, 63, REGISTER_LIMIT);
    bad |= wrong_in_thread("plant_distance", distance, -far, REGISTER_LIMIT);
    input = "an identity that is not there";
    bad |= wrong("plant_distance", absent, PLANT_NO_TARGET, REGISTER_LIMIT);
    last[PLANT_ENTRY - 1] = 2;
    bad |= wrong_questions("the last byte damaged", refused, refused, refused);
    last[PLANT_ENTRY - 1] = 0;
    memcpy(last + 8 + PLANT_FIELD, reg + 8 + PLANT_HEADER, PLANT_FIELD);
    bad |= wrong_questions("the last end at the first start", refused, refused, refused);
    memcpy(last, reg + PLANT_HEADER, 4);
    bad |= wrong_questions("the last identity the first once more", refused, refused, refused);
    reg[4] = 1;
    bad |= wrong_questions("the second number not 0", refused, refused, refused);
    make_chain(64);
    bad |= wrong_questions("one chain down to depth 63", 63, 63, -63);
    make_chain(65);
    bad |= wrong_questions("one chain down to depth 64", refused, refused, refused);
    return bad;
}

/* A register of a table of a shape, one entry taken out, so that there is room for another. */
static void make_room(uint32_t (*depth)(uint32_t), uint32_t identity)
{
    make_table(depth);
    label();
    if (plant_delete(reg, sizeof reg, identity) < 0)
        exit(2);
}

/* The five edits of the register as it stands, aimed at one entry */
static int wrong_edits(const char *shape, uint32_t aimed, const int64_t expected[5])
{
    static const struct call edits[] = {
        {.name = "plant_insert_first", .run = insert_first},   {.name = "plant_insert_last", .run = insert_last},
        {.name = "plant_insert_before", .run = insert_before}, {.name = "plant_insert_after", .run = insert_after},
        {.name = "plant_delete", .run = delete},
    };
    int bad = 0;

    input = shape;
    memcpy(kept, reg, sizeof reg);
    target = aimed;
    for (size_t i = 0; i < 5; i++)
        bad |= wrong(edits[i].name, edits[i].run, expected[i], REGISTER_LIMIT);
    again();
    return bad;
}

static int wrong_all_edits(void)
{
    const uint32_t last = PLANT_ROWS;
    const int64_t no = PLANT_NO_REGISTER, all_refused[] = {no, no, no, no, no};
    int bad = 0;

    make_room(flat, 2);
    bad |= wrong_edits("flat, aimed at the root", 1, (int64_t[]){1, last - 1, PLANT_ROOT, PLANT_ROOT, PLANT_ROOT});
    bad |= wrong_edits("flat, aimed at the last", last, (int64_t[]){last - 1, last - 1, last - 2, last - 1, last - 2});
    make_room(chains, last);
    bad |= wrong_edits("chains, aimed at depth 63", 64, (int64_t[]){PLANT_DEPTH, PLANT_DEPTH, 63, 64, 63});
    label();
    bad |= wrong_edits("chains, full", 63, (int64_t[]){PLANT_ROOM, PLANT_ROOM, PLANT_ROOM, PLANT_ROOM, PLANT_CHILDREN});
    make_room(last_deepest, 2);
    bad |= wrong_edits("the last at depth 62", last - 1, (int64_t[]){last - 2, last - 1, last - 3, last - 1, PLANT_CHILDREN});
    bad |= wrong_edits("the last at depth 63", last, (int64_t[]){PLANT_DEPTH, PLANT_DEPTH, last - 2, last - 1, last - 2});
    bad |= wrong_in_thread("plant_insert_after", insert_after, last - 1, REGISTER_LIMIT);
    bad |= wrong_in_thread("plant_delete", delete, last - 2, REGISTER_LIMIT);
    again()[PLANT_HEADER + PLANT_ENTRY * (PLANT_ROWS - 1) - 1] = 2;
    bad |= wrong_edits("the last byte damaged", last, all_refused);
    make_chain(65);
    bad |= wrong_edits("one chain down to depth 64", last, all_refused);
    make_chain(63);
    bad |= wrong_edits("one chain down to depth 62", last, (int64_t[]){63, 63, 62, 63, 62});
    bad |= wrong_edits("one chain, aimed at the root", 1, (int64_t[]){PLANT_CODE_LENGTH, 63, PLANT_ROOT, PLANT_ROOT, PLANT_ROOT});
    reg[4] = 1;
    bad |= wrong_edits("the second number not 0", 1, all_refused);
    return bad;
}

/* The calls on codes and labels, with sound inputs or with those damaged */
static int wrong_codes(const char *with, int damaged)
{
    int bad = 0;

    input = with;
    for (size_t i = 0; i < sizeof calls / sizeof calls[0]; i++)
        bad |= wrong(calls[i].name, calls[i].run, damaged ? calls[i].refusal : calls[i].answer, LIMIT);
    return bad;
}

/* The longest codes, and then the last bit of each or the last digit wrong. */
static int wrong_all_codes(void)
{
    int bad = 0;

    memset(digits, 1, sizeof digits);
    digits[PLANT_LONGEST - 1] = 2;
    code(left, 126, 2);
    code(right, 126, 3);
    make_label(upper, 127, 2, 124, 2);
    make_label(lower, 126, 2, 125, 2);
    memcpy(lower + 2 * PLANT_FIELD, upper, PLANT_FIELD);
    bad |= wrong_codes("long codes", 0);
    digits[PLANT_LONGEST - 1] = 1;
    left[PLANT_FIELD - 1] |= 1;
    lower[PLANT_LABEL - 1] |= 1;
    bad |= wrong_codes("unsound at the end", 1);
    return bad;
}

static int wrong_tables(void)
{
    int bad = 0;

    make_table(flat);
    bad |= wrong_label("flat", sizeof reg);
    make_table(random_depth);
    bad |= wrong_label("random", sizeof reg);
    make_table(chains);
    bad |= wrong_label("chains", sizeof reg);
    bad |= wrong_in_thread("plant_label", label, sizeof reg, LABEL_LIMIT);
    room--;
    bad |= wrong_label("no room", PLANT_ROOM);
    table[PLANT_ROW * (PLANT_ROWS - 1)] = 1;
    bad |= wrong_label("an identity twice", PLANT_IDENTITY - INT64_C(1000000) * (PLANT_ROWS - 1));
    table[PLANT_ROW * PLANT_ROWS - 1] = 0;
    bad |= wrong_label("a depth of 0", PLANT_ROW_DEPTH - INT64_C(1000000) * (PLANT_ROWS - 1));
    room++;
    return bad;
}

int main(int argc, char **argv)
{
    int bad = 0;

    (void)argv;
    table_only = argc > 1;
    setvbuf(stdout, NULL, _IOLBF, BUFSIZ);
    bad |= wrong_all_codes();
    bad |= wrong_registers();
    bad |= wrong_tables();
    bad |= wrong_all_edits();
    print_most();
    return bad;
}
