/* What the tests of tables, of registers and of edits share: the case under way, random tables, and a register's parts put in
 * their places. Needs guard.h, plant.h and fields.h. */

/* 01's numbers, stated here once more on purpose. */
enum { ROW = 3, ROWS = 4096, DEEPEST = 63, HEADER = 8, ENTRY = 104 };

_Static_assert(PLANT_ROW == ROW && PLANT_ROWS == ROWS && PLANT_HEADER == HEADER && PLANT_ENTRY == ENTRY, "sizes");

/* ---- the case under way ---- */

static const char *group;
static unsigned long case_number;
static int side;

static void print_case(void);

static void print_place(void)
{
    printf("  seed %llu, rounds %llu, case %lu (%s), %s the guard page\n", seed, rounds, case_number, group,
           side ? "behind" : "before");
}

/* The model fails against 01, or a register is not what it was made to be: no word on the library. */
static void fail_test(const char *what)
{
    printf("THE TEST IS WRONG: %s\n", what);
    print_case();
    exit(1);
}

static void on_fault(int signal_number)
{
    (void)signal_number;
    put("FAULT: a byte outside a lent buffer was touched, or an input written: seed ");
    put_number(seed), put(", rounds "), put_number(rounds), put(", case "), put_number(case_number), put(" ("), put(group);
    put(side ? "), behind the guard page\n" : "), before the guard page\n");
    _exit(1);
}

/* ---- making tables ---- */

enum { MOST = ROWS + 2 }; /* rows, so that too many can be lent */
static uint32_t table[MOST * ROW];
static size_t numbers;

enum shape { FLAT, CHAINS, UNIFORM, DEEP, SHAPES };

static uint32_t next_depth(enum shape shape, uint32_t previous)
{
    int most = previous < DEEPEST ? (int)previous + 1 : DEEPEST, x = pick(most), y = pick(most);

    switch (shape) {
    case FLAT:
        return 1;
    case CHAINS:
        return previous < DEEPEST ? previous + 1 : 1;
    case UNIFORM:
        return (uint32_t)(1 + x);
    default:
        return (uint32_t)(1 + (x > y ? x : y));
    }
}

/* 01's worked example */
static const uint32_t worked[] = {10, 1, 0, 11, 2, 1, 12, 2, 1, 13, 3, 2};

/* Row i has identity (i + 1) x factor, which no other row has if the factor is odd or small. The factors: rows in order; all
 * the same modulo 8192; the inverse of 2654435761 modulo 2^32, a usual factor to spread numbers over a hash table, so that
 * all fall in its first place, or, negative, in its last. */
static const uint32_t factors[] = {1, 8192, 244002641, -(uint32_t)244002641};
enum { FACTORS = sizeof factors / sizeof factors[0] };

static uint32_t random_factor(void)
{
    return chance(2) ? (uint32_t)draw() | 1 : factors[pick(FACTORS)];
}

static void make_table(size_t rows, enum shape shape, uint32_t factor)
{
    numbers = ROW * rows;
    for (size_t i = 0; i < rows; i++) {
        table[ROW * i] = (uint32_t)(i + 1) * factor;
        table[ROW * i + 1] = chance(4) ? 0 : (uint32_t)draw();
        table[ROW * i + 2] = i == 0 ? 0 : next_depth(shape, table[ROW * (i - 1) + 2]);
    }
}

/* ---- a register's parts ---- */

/* of n bytes, and at least one byte more */
static size_t whole_pages(size_t n)
{
    return (n / page + 1) * page;
}

static void put_field(uint8_t *field, const char *code)
{
    memset(field, 0, FIELD);
    for (int k = 0; code[k]; k++)
        field[k / 4] = (uint8_t)(field[k / 4] + weight[k % 4] * (code[k] - '0'));
}

static void put_32(uint8_t *to, uint32_t x)
{
    for (int i = 0; i < 4; i++, x /= 256)
        to[i] = (uint8_t)(x % 256);
}

/* Entry i's identity and tag */
static void put_numbers(uint8_t *to, int i, uint32_t identity, uint32_t tag)
{
    put_32(to + HEADER + ENTRY * i, identity);
    put_32(to + HEADER + ENTRY * i + 4, tag);
}

/* Entry i's label; the parent start is empty for the root */
static inline void put_label(uint8_t *to, int i, const char *start, const char *end, const char *parent_start)
{
    uint8_t *at = to + HEADER + ENTRY * i + 8;

    put_field(at, start);
    put_field(at + FIELD, end);
    put_field(at + 2 * FIELD, parent_start);
}
