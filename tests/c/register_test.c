/* Drives the questions on a register and compares their answers with a model written from 01, the scope paper.
 *
 * The model reads every code as text, sorts the codes and walks along them as along the tour: a start opens its entry, an end
 * closes it. It shares nothing with the library. Sound registers are those of plant_label and others whose codes are drawn at
 * random, of up to 127 digits; then one thing is damaged, and the model says whether the register is still sound. Each case
 * is run twice: the register, of exactly the stated length, stands first directly before and then directly behind a page that
 * may not be touched, on pages that may not be written.
 *
 * usage: register_test [seed [rounds]]
 */
#define _DEFAULT_SOURCE
#include "guard.h"
#include "plant.h"
#include "fields.h"
#include "tables.h"
#include "registers.h"
#include "damage.h"

/* ---- one case ---- */

static void print_case(void)
{
    print_place();
    print_register();
}

static size_t pages; /* bytes of all pages */
static uint8_t *lent, *filled;
static unsigned long verdicts[VERDICTS];

enum question { PLACE, DEPTH, DISTANCE, QUESTIONS };
static const char *const question_names[QUESTIONS] = {"plant_place", "plant_depth", "plant_distance"};
static unsigned long tally[QUESTIONS][3]; /* answered, no. 5, no. 6 */
static unsigned long deepest, below_0;

static void make_buffers(void)
{
    pages = whole_pages(sizeof reg);
    make_input(pages, &lent, &filled);
}

static void compare(enum question q, enum verdict v, uint32_t x, uint32_t y, int32_t got, int32_t want)
{
    tally[q][want == -100005 ? 1 : want == -100006 ? 2 : 0]++;
    if (got == want)
        return;
    printf("MISMATCH: %s of %u", question_names[q], x);
    if (q == DISTANCE)
        printf(" and %u", y);
    printf(": %d, expected %d; the model's verdict: %s\n", got, want, verdict_names[v]);
    print_case();
    exit(1);
}

static void ask(enum verdict v, uint32_t x, uint32_t y)
{
    const uint8_t *at = lent + (side ? 0 : pages - len);
    int32_t place = -100005, depth = -100005, distance = -100005;

    if (v == SOUND) {
        int i = model_place(x), j = model_place(y);
        place = i < 0 ? -100006 : i;
        depth = i < 0 ? -100006 : model_depth(i);
        distance = i < 0 || j < 0 ? -100006 : j - i;
        deepest += depth == DEEPEST;
        below_0 += distance > -100000 && distance < 0;
    }
    compare(PLACE, v, x, y, plant_place(at, len, x), place);
    compare(DEPTH, v, x, y, plant_depth(at, len, x), depth);
    compare(DISTANCE, v, x, y, plant_distance(at, len, x, y), distance);
}

static enum verdict count_case(void)
{
    enum verdict v = model_verdict();

    case_number++;
    verdicts[v]++;
    return v;
}

/* The register stands at the end of its pages, before a guard, or at the beginning, behind one. */
static void lend(void)
{
    memcpy(filled + (side ? 0 : pages - len), reg, len);
}

static enum verdict try_register(void)
{
    enum verdict v = count_case();

    for (side = 0; side < 2; side++) {
        lend();
        ask(v, random_identity(), random_identity());
    }
    return v;
}

/* Every entry with another and with an identity that no entry has; up to 12 entries every two. */
static void try_all(void)
{
    enum verdict v = count_case();

    for (side = 0; side < 2; side++) {
        lend();
        for (int i = 0; i < rows; i++) {
            for (int j = 0; j < rows && rows <= 12; j++)
                ask(v, get_32(entry_at(i)), get_32(entry_at(j)));
            ask(v, get_32(entry_at(i)), get_32(entry_at(pick(rows))));
            ask(v, get_32(entry_at(i)), 0);
            ask(v, 0, get_32(entry_at(i)));
        }
    }
}

static void must_be(enum verdict want)
{
    if (try_register() != want)
        fail_test(verdict_names[want]);
}

/* ---- fixed cases ---- */

static void worked_example(void)
{
    static const int32_t depths[] = {0, 1, 1, 2};

    group = "the worked example";
    build_worked();
    try_all();
    for (int32_t i = 0; i < rows; i++)
        for (int32_t j = 0; j < rows; j++) {
            uint32_t x = 10 + (uint32_t)i, y = 10 + (uint32_t)j;
            compare(PLACE, SOUND, x, y, plant_place(reg, len, x), i);
            compare(DEPTH, SOUND, x, y, plant_depth(reg, len, x), depths[i]);
            compare(DISTANCE, SOUND, x, y, plant_distance(reg, len, x, y), j - i);
        }
}

static void every_size(void)
{
    group = "every number of entries to 32";
    for (size_t n = 1; n <= 32; n++)
        for (int drawn = 0; drawn < 2; drawn++) {
            make_register(n, (enum shape)(n % SHAPES), drawn);
            try_all();
        }
}

static void every_length(void)
{
    group = "every length of buffer";
    for (size_t n = 1; n <= 3; n++)
        for (size_t bytes = 0; bytes <= HEADER + ENTRY * n + 9; bytes++) {
            make_register(n, UNIFORM, 1);
            lend_more(9);
            len = bytes;
            try_register();
        }
}

static void every_bit(void)
{
    group = "every bit";
    for (size_t n = 1; n <= 4; n += 3)
        for (int drawn = 0; drawn < 2; drawn++) {
            make_register(n, DEEP, drawn);
            lend_more(5);
            for (size_t bit = 0; bit < 8 * len; bit++) {
                reg[bit / 8] ^= (uint8_t)(1 << bit % 8);
                enum verdict v = try_register();
                if (bit >= 8 * (HEADER + ENTRY * n) && v != SOUND)
                    fail_test("a bit past the counted entries");
                reg[bit / 8] ^= (uint8_t)(1 << bit % 8);
            }
        }
}

/* Every field over every other, and in its place. */
static void every_two_fields(void)
{
    static uint8_t kept[sizeof reg];

    group = "every two fields";
    for (int drawn = 0; drawn < 2; drawn++)
        for (int shape = 0; shape < SHAPES; shape++) {
            make_register(5, (enum shape)shape, drawn);
            memcpy(kept, reg, len);
            for (int x = 0; x < 15; x++)
                for (int y = 0; y < 15; y++) {
                    memcpy(field_at(x / 3, x % 3), field_at(y / 3, y % 3), FIELD);
                    try_register();
                    memcpy(reg, kept, len);
                    swap(field_at(x / 3, x % 3), field_at(y / 3, y % 3), FIELD);
                    try_register();
                    memcpy(reg, kept, len);
                }
        }
}

/* Chains down to each depth near the limit, with a second entry there, and one more at depth 1. */
static void depth_limit(void)
{
    group = "depths of 63 and 64";
    for (uint32_t depth = DEEPEST - 1; depth <= DEEPEST + 2; depth++)
        for (size_t more = 0; more < 3; more++) {
            make_table(depth + 1 + more, FLAT, random_factor());
            for (uint32_t i = 0; i <= depth; i++)
                table[ROW * i + 2] = i;
            if (more > 0)
                table[ROW * (depth + 1) + 2] = depth;
            build_drawn();
            must_be(depth <= DEEPEST ? SOUND : TOO_DEEP);
            if (depth <= DEEPEST && more == 2) {
                build_first();
                try_all();
            }
        }
}

/* The largest registers, then damaged at the far end. */
static void largest(void)
{
    for (int shape = 0; shape < SHAPES; shape++)
        for (int drawn = 0; drawn < 2; drawn++) {
            group = "4096 entries";
            uint32_t factor = drawn ? 1 : factors[shape % FACTORS];
            make_table(ROWS, (enum shape)shape, factor);
            if (drawn)
                build_drawn();
            else
                build_first();
            must_be(SOUND);
            group = "4096 entries, the last damaged";
            len--;
            must_be(CUT_SHORT);
            len++;
            memcpy(entry_at(ROWS - 1), entry_at(shape), 4);
            must_be(IDENTITY_TWICE);
            put_32(entry_at(ROWS - 1), 0);
            must_be(IDENTITY_0);
            memcpy(entry_at(ROWS - 1), entry_at(0), 4);
            put_32(reg, ROWS - 1);
            must_be(SOUND);
            put_32(reg, ROWS);
            put_32(entry_at(ROWS - 1), ROWS * factor);
            memcpy(field_at(ROWS - 1, 2), field_at(ROWS - 1, 0), FIELD);
            must_be(WRONG_PARENT);
        }
    group = "4097 entries";
    make_table(ROWS + 1, UNIFORM, 1);
    build_drawn();
    must_be(COUNT_BIG);
    put_32(reg, ROWS);
    must_be(SOUND);
}

/* ---- random cases ---- */

static void random_register(size_t n)
{
    make_register(n, (enum shape)pick(SHAPES), !chance(3));
}

static void random_case(void)
{
    size_t n = (size_t)(1 + pick(chance(8) ? 200 : 24));

    group = "random register";
    random_register(n);
    if (chance(2))
        lend_more((size_t)pick(2 * ENTRY));
    if (chance(16))
        try_all();
    else
        must_be(SOUND);
    group = "random register, damaged";
    for (int i = 0; i < 4; i++) {
        random_register(n);
        if (chance(4))
            lend_more((size_t)pick(2 * ENTRY));
        spoil((enum damage)pick(DAMAGES));
        try_register();
        if (chance(3)) {
            spoil((enum damage)pick(DAMAGES));
            try_register();
        }
    }
}

/* Each damage to a small register, by itself. */
static void every_damage(void)
{
    group = "every damage";
    for (int damage = 0; damage < DAMAGES; damage++)
        for (int i = 0; i < 24; i++) {
            random_register((size_t)(2 + i % 12));
            spoil((enum damage)damage);
            try_register();
        }
}

int main(int argc, char **argv)
{
    unsigned long missing = 0;

    start_test(argc, argv, 1000, on_fault);
    make_buffers();

    worked_example();
    every_size();
    every_length();
    every_bit();
    every_two_fields();
    depth_limit();
    largest();
    every_damage();
    for (unsigned long long i = 0; i < rounds; i++)
        random_case();

    for (int q = 0; q < QUESTIONS; q++) {
        printf("%s: answered %lu, no. 5 %lu, no. 6 %lu\n", question_names[q], tally[q][0], tally[q][1], tally[q][2]);
        for (int k = 0; k < 3; k++)
            missing += tally[q][k] == 0;
    }
    printf("depths of 63: %lu, distances below 0: %lu\nregisters:", deepest, below_0);
    missing += (deepest == 0) + (below_0 == 0);
    for (int v = 0; v < VERDICTS; v++) {
        printf("%s %s %lu", v > 0 ? "," : "", verdict_names[v], verdicts[v]);
        missing += verdicts[v] == 0;
    }
    printf("\n");
    if (missing > 0) {
        printf("NEVER SEEN: %lu of these\n", missing);
        return 1;
    }
    printf("%lu cases, each before and behind a guard page: no mismatch\n", case_number);
    return 0;
}
