/* Drives plant_label and compares its answer and every lent byte with a model written from 01, the scope paper.
 *
 * The model links each row to its parent and its parent to it, numbers starts and ends by a recursive tour and keeps codes as
 * text; it shares nothing with the library. Each call is made twice: table and register, of exactly the stated length, stand
 * first directly before and then directly behind a page that may not be touched, and the table on pages that may not be
 * written.
 *
 * usage: label_test [seed [rounds]]
 */
#define _DEFAULT_SOURCE
#include "guard.h"
#include "plant.h"
#include "fields.h"
#include "tables.h"
#include "codes.h"
#include "output.h"

/* ---- the case under way ---- */

static size_t room;

static void print_case(void)
{
    size_t shown = numbers < 40 * ROW ? numbers : 40 * ROW;

    print_place();
    printf("  %zu numbers, room %zu; rows:", numbers, room);
    for (size_t i = 0; i < shown; i++)
        printf("%s%u", i % ROW == 0 ? "  " : " ", table[i]);
    printf("%s\n", shown < numbers ? "  and so on" : "");
}

/* ---- the model ---- */

/* A number of 0 is no refusal. */
struct verdict {
    int number;
    size_t row;
};

static int used_above(size_t row)
{
    for (size_t i = 0; i < row; i++)
        if (table[ROW * i] == table[ROW * row])
            return 1;
    return 0;
}

static struct verdict model_verdict(void)
{
    size_t rows = numbers / ROW;

    if (numbers % ROW != 0 || rows == 0 || rows > ROWS)
        return (struct verdict){1, 0};
    for (size_t i = 0; i < rows; i++) {
        uint32_t depth = table[ROW * i + 2];
        if (i == 0 ? depth != 0 : depth < 1 || depth > DEEPEST || depth > table[ROW * (i - 1) + 2] + 1)
            return (struct verdict){2, i};
        if (table[ROW * i] == 0 || used_above(i))
            return (struct verdict){3, i};
    }
    return (struct verdict){room < HEADER + ENTRY * rows ? 4 : 0, 0};
}

/* Entries by their rows; -1 is none. */
static struct entry {
    int parent, first_child, last_child, next;
    int start, end; /* numbers along the tour */
} entries[ROWS];

static void link_entries(int rows)
{
    for (int i = 0; i < rows; i++) {
        int parent = i - 1;
        while (parent >= 0 && table[ROW * parent + 2] + 1 != table[ROW * i + 2])
            parent--;
        entries[i] = (struct entry){.parent = parent, .first_child = -1, .last_child = -1, .next = -1};
        if (parent < 0)
            continue;
        if (entries[parent].last_child < 0)
            entries[parent].first_child = i;
        else
            entries[entries[parent].last_child].next = i;
        entries[parent].last_child = i;
    }
}

/* Numbers an entry's start, its children and its end; answers the last number given. */
static int tour(int entry, int number)
{
    entries[entry].start = ++number;
    for (int child = entries[entry].first_child; child >= 0; child = entries[child].next)
        number = tour(child, number);
    entries[entry].end = ++number;
    return number;
}

/* The codes along the tour as text, from number 1 on; the open sides are empty. */
static char codes[2 * ROWS + 2][LONGEST + 1];

static void must_fit(int fits)
{
    if (!fits)
        fail_test("a code passes 127 digits");
}

/* The codes of the gap between numbers p and q */
static void make_codes(int p, int q)
{
    int d = q - p, i = p + (d + 1) / 3, j = p + (2 * d + 1) / 3;

    if (d == 2)
        must_fit(make_between(codes[p + 1], codes[p], codes[q]));
    if (d < 3)
        return;
    if (strlen(codes[p]) < strlen(codes[q])) {
        if (!ends_in(codes[q], '2'))
            fail_test("the longer right side of a gap does not end in 2");
        must_fit(make(codes[i], codes[q], 1, "12"));
        must_fit(make(codes[j], codes[q], 1, "13"));
    } else {
        must_fit(make(codes[i], codes[p], 0, "2"));
        must_fit(make(codes[j], codes[p], 0, "3"));
    }
    make_codes(p, i);
    make_codes(i, j);
    make_codes(j, q);
}

static void model_register(int rows, uint8_t *to)
{
    codes[0][0] = codes[2 * rows + 1][0] = 0;
    make_codes(0, 2 * rows + 1);
    for (int k = 1; k <= 2 * rows; k++)
        if (strcmp(codes[k - 1], codes[k]) >= 0)
            fail_test("the codes do not rise along the tour");
    link_entries(rows);
    if (tour(0, 0) != 2 * rows)
        fail_test("the tour does not meet every entry");
    put_32(to, (uint32_t)rows);
    put_32(to + 4, 0);
    for (int i = 0; i < rows; i++) {
        const struct entry *x = &entries[i];
        const char *above = x->parent < 0 ? "" : codes[entries[x->parent].start];
        put_numbers(to, i, table[ROW * i], table[ROW * i + 1]);
        put_label(to, i, codes[x->start], codes[x->end], above);
    }
}

/* ---- one case ---- */

static size_t table_pages; /* bytes of all pages */
static uint8_t *table_lent, *table_filled;
static unsigned long tally[5]; /* by refusal number; 0 accepted */

static void make_buffers(void)
{
    table_pages = whole_pages(sizeof table);
    make_input(table_pages, &table_lent, &table_filled);
    make_output_pages();
}

/* Both buffers stand at the end of their pages, before a guard, or at the beginning, behind one. */
static void try_table(void)
{
    struct verdict v = model_verdict();
    size_t bytes = numbers * sizeof *table;
    int64_t want = -(100000 + v.number + INT64_C(1000000) * (int64_t)v.row);

    case_number++;
    for (side = 0; side < 2; side++) {
        size_t table_at = side ? 0 : table_pages - bytes;
        memcpy(table_filled + table_at, table, bytes);
        lend_output(room);
        if (v.number == 0) {
            model_register((int)(numbers / ROW), output_wanted);
            want = (int64_t)(HEADER + ENTRY * (numbers / ROW));
        }
        int64_t got = plant_label((const uint32_t *)(const void *)(table_lent + table_at), numbers, output, room);
        if (got != want)
            fail("answer", got, want);
        if (v.number > 0 && PLANT_REFUSAL_OF(got) != PLANT_REFUSED(v.number))
            fail("refusal out of the answer", PLANT_REFUSAL_OF(got), PLANT_REFUSED(v.number));
        if (v.number > 0 && PLANT_ROW_OF(got) != (int64_t)v.row)
            fail("row out of the answer", PLANT_ROW_OF(got), (int64_t)v.row);
        check_output();
    }
    tally[v.number]++;
}

/* With room for as many rows as there are, and a number of bytes more or less. */
static void try_room(int more)
{
    room = HEADER + ENTRY * (numbers / ROW) + (size_t)more;
    try_table();
}

static void try_rooms(void)
{
    room = 0;
    try_table();
    try_room(-1), try_room(0), try_room(1);
}

/* ---- fixed cases ---- */

/* The register of a table, printed as 01 says, is this text. */
static void vector(const uint32_t *rows, size_t count, const char *text)
{
    char *printed = NULL;
    size_t size = 0;
    FILE *to = open_memstream(&printed, &size);

    numbers = ROW * count;
    memcpy(table, rows, numbers * sizeof *rows);
    try_rooms();
    for (size_t i = 0; to && i < count; i++) {
        const uint8_t *at = output + HEADER + ENTRY * i;
        fprintf(to, "%d %d", at[0], at[4]); /* numbers below 256 */
        for (int k = 0; k < 3; k++)
            print_field(to, at + 8 + FIELD * k);
        fprintf(to, "\n");
    }
    if (!to || fclose(to) != 0)
        exit(2);
    if (strcmp(printed, text) != 0) {
        printf("MISMATCH: the register of %s is\n%sexpected\n%s", group, printed, text);
        exit(1);
    }
    free(printed);
}

static void vectors(void)
{
    static const uint32_t one[] = {7, 0, 0};
    static const uint32_t nine[] = {1, 1, 0, 2, 1, 1, 3, 1, 1, 4, 1, 2, 5, 1, 2, 6, 1, 1, 7, 1, 2, 8, 1, 1, 9, 1, 1};

    group = "one row, P1";
    vector(one, 1, "7 0 2 3 -\n");
    group = "the worked example";
    vector(worked, 4, "10 1 12 33 -\n11 2 13 2 12\n12 2 22 32 12\n13 3 23 3 22\n");
    group = "001's table 3; its example 8.3 has the first three rows";
    vector(nine, 9,
           "1 1 112 332 -\n2 1 12 122 112\n3 1 13 222 112\n4 1 132 2 13\n5 1 212 22 13\n"
           "6 1 223 3 112\n7 1 23 232 223\n8 1 312 32 112\n9 1 322 33 112\n");
}

static void every_size(void)
{
    group = "every number of rows to 130";
    for (size_t rows = 1; rows <= 130; rows++) {
        make_table(rows, (enum shape)(rows % SHAPES), 1);
        try_rooms();
    }
}

static void lengths(void)
{
    static const size_t rows[] = {0, 1, 2, ROWS - 1, ROWS, ROWS + 1};

    group = "whole rows and more, up to too many";
    make_table(MOST, FLAT, 1);
    for (size_t i = 0; i < sizeof rows / sizeof rows[0]; i++)
        for (size_t more = 0; more < ROW; more++) {
            numbers = ROW * rows[i] + more;
            try_room(-1), try_room(0);
        }
}

static void depth_limit(void)
{
    group = "depths of 63 and 64";
    for (size_t rows = DEEPEST; rows <= DEEPEST + 3; rows++)
        for (uint32_t depth = DEEPEST - 1; depth <= DEEPEST + 2; depth++) {
            make_table(rows, CHAINS, 1);
            table[numbers - 1] = depth;
            try_room(0);
        }
}

enum fault { TOO_DEEP, DEPTH_0, DEPTH_64, DEPTH_HUGE, IDENTITY_0, DOUBLED, DOUBLED_FAR, FAULTS };

/* Spoils a row. In the first one a depth of 0 is no fault, and for an identity used above it takes 0. */
static void spoil(enum fault fault, size_t row)
{
    uint32_t *at = table + ROW * row;

    switch (fault) {
    case TOO_DEEP:
        at[2] = row == 0 ? 1 : at[2 - ROW] + 2;
        break;
    case DEPTH_0:
        at[2] = 0;
        break;
    case DEPTH_64:
        at[2] = DEEPEST + 1;
        break;
    case DEPTH_HUGE:
        at[2] = UINT32_MAX;
        break;
    case IDENTITY_0:
        at[0] = 0;
        break;
    case DOUBLED:
        at[0] = row == 0 ? 0 : at[-ROW];
        break;
    default:
        at[0] = row == 0 ? 0 : table[0];
    }
}

/* Every two faults in every two rows of six, with and without the room for them. */
static void two_faults(void)
{
    group = "two faults at once";
    for (int k = 0; k < FAULTS * FAULTS; k++)
        for (size_t rows = 0; rows < 36; rows++)
            for (int more = -1; more <= 0; more++) {
                make_table(6, DEEP, 1);
                spoil((enum fault)(k / FAULTS), rows / 6);
                spoil((enum fault)(k % FAULTS), rows % 6);
                try_room(more);
            }
}

/* The longest tables, whole, then with a fault in the last row. */
static void longest(void)
{
    for (int shape = 0; shape < SHAPES; shape++) {
        group = "4096 rows";
        make_table(ROWS, (enum shape)shape, factors[shape % FACTORS]);
        try_room(-1), try_room(0), try_room(1);
        group = "4096 rows, the last spoilt";
        for (int fault = DOUBLED; fault <= DOUBLED_FAR; fault++) {
            spoil((enum fault)fault, ROWS - 1);
            try_room(0);
        }
        spoil(TOO_DEEP, ROWS - 1);
        try_room(0);
    }
}

/* ---- random cases ---- */

static void random_room(void)
{
    switch (pick(6)) {
    case 0:
        try_room(-1);
        break;
    case 1:
        try_room(1 + pick(200));
        break;
    case 2:
        room = (size_t)pick(300);
        try_table();
        break;
    default:
        try_room(0);
    }
}

static void random_table(void)
{
    size_t rows = (size_t)(1 + pick(chance(8) ? 300 : 24));

    group = "random table";
    make_table(rows, (enum shape)pick(SHAPES), random_factor());
    random_room();
    group = "random table, damaged";
    for (int faults = 1 + pick(3); faults > 0; faults--) {
        size_t row = (size_t)pick((int)rows);
        if (chance(6))
            table[ROW * row] = table[ROW * (size_t)pick((int)rows)];
        else
            spoil((enum fault)pick(FAULTS), row);
    }
    if (chance(8))
        numbers -= (size_t)(1 + pick(2));
    random_room();
}

int main(int argc, char **argv)
{
    int missing = 0;

    start_test(argc, argv, 2000, on_fault);
    make_buffers();

    vectors();
    every_size();
    lengths();
    depth_limit();
    two_faults();
    longest();
    for (unsigned long long i = 0; i < rounds; i++)
        random_table();

    printf("plant_label: accepted %lu, no. 1 %lu, no. 2 %lu, no. 3 %lu, no. 4 %lu\n", tally[0], tally[1], tally[2], tally[3],
           tally[4]);
    for (int i = 0; i < 5; i++)
        missing += tally[i] == 0;
    if (missing > 0) {
        printf("NEVER SEEN: %d of these answers\n", missing);
        return 1;
    }
    printf("%lu cases, each before and behind a guard page: no mismatch\n", case_number);
    return 0;
}
