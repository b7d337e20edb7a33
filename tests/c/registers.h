/* What the tests of registers and of edits share: the register of the case under way, a model of its soundness written from 01,
 * and registers of tables, with first codes or with codes drawn at random. Needs guard.h, plant.h, fields.h and tables.h. */

/* ---- the register of the case under way ---- */

static uint8_t reg[HEADER + ENTRY * MOST];
static size_t len;
static int rows; /* entries that were made, whatever the count says now */

static uint32_t get_32(const uint8_t *from)
{
    return from[0] + 256u * (from[1] + 256u * (from[2] + 256u * from[3]));
}

static uint8_t *entry_at(int i)
{
    return reg + HEADER + ENTRY * i;
}

/* 0 start, 1 end, 2 parent start */
static uint8_t *field_at(int i, int k)
{
    return entry_at(i) + 8 + FIELD * k;
}

/* The first entries */
static void print_register(void)
{
    int shown = rows < 40 ? rows : 40;

    printf("  %zu bytes; count %u, then %u; identity, tag, start, end, parent start of %d of %d entries:\n", len, get_32(reg),
           get_32(reg + 4), shown, rows);
    for (int i = 0; i < shown; i++) {
        printf("  %u %u", get_32(entry_at(i)), get_32(entry_at(i) + 4));
        for (int k = 0; k < 3; k++)
            print_field(stdout, field_at(i, k));
        printf("\n");
    }
}

/* ---- the model of soundness ---- */

enum verdict {
    SOUND, NO_HEADER, COUNT_0, COUNT_BIG, CUT_SHORT, NOT_ZERO, IDENTITY_0, IDENTITY_TWICE, DIGITS_128, HOLE, LAST_1, NO_CODE,
    CODE_TWICE, NOT_IN_ORDER, CROSSED, TWO_ROOTS, TOO_DEEP, ROOT_HAS_PARENT, WRONG_PARENT, VERDICTS
};

static const char *const verdict_names[VERDICTS] = {
    "sound", "no header", "count 0", "count above 4096", "short of its entries", "second number", "identity 0",
    "identity twice", "128 digits", "digit behind a zero", "last digit 1", "no start or end", "code twice", "starts not in order",
    "entries cross", "two roots", "depth 64", "root's parent start", "parent start"
};

static char texts[ROWS][3][LONGEST + 2];
static int parents[ROWS]; /* -1 is none */

static struct point {
    const char *code;
    int entry, is_end;
} points[2 * ROWS];

static enum verdict read_field(const uint8_t *field, char *text)
{
    int n = 0;

    for (int k = 0; k <= LONGEST; k++) {
        int digit = digit_at(field, k);
        if (digit != 0 && n < k)
            return HOLE;
        if (digit != 0)
            text[n++] = (char)('0' + digit);
    }
    text[n] = 0;
    if (n > LONGEST)
        return DIGITS_128;
    return n > 0 && text[n - 1] == '1' ? LAST_1 : SOUND;
}

static int compare_numbers(const void *x, const void *y)
{
    uint32_t a = *(const uint32_t *)x, b = *(const uint32_t *)y;

    return (a > b) - (a < b);
}

static int compare_points(const void *x, const void *y)
{
    return strcmp(((const struct point *)x)->code, ((const struct point *)y)->code);
}

static enum verdict model_identities(int n)
{
    static uint32_t sorted[ROWS];

    for (int i = 0; i < n; i++)
        sorted[i] = get_32(entry_at(i));
    qsort(sorted, (size_t)n, sizeof *sorted, compare_numbers);
    if (sorted[0] == 0)
        return IDENTITY_0;
    for (int i = 1; i < n; i++)
        if (sorted[i - 1] == sorted[i])
            return IDENTITY_TWICE;
    return SOUND;
}

/* The number of entries above */
static int model_depth(int i)
{
    int depth = 0;

    while (parents[i] >= 0)
        i = parents[i], depth++;
    return depth;
}

/* Entry i starts with `open` open: its parent, or -1. */
static enum verdict model_start(int i, int open)
{
    parents[i] = open;
    if (open < 0)
        return i > 0 ? TWO_ROOTS : texts[i][2][0] ? ROOT_HAS_PARENT : SOUND;
    if (model_depth(i) > DEEPEST)
        return TOO_DEEP;
    return strcmp(texts[i][2], texts[open][0]) != 0 ? WRONG_PARENT : SOUND;
}

static enum verdict model_tour(int n)
{
    int open = -1, next = 0;

    for (int i = 0; i < 2 * n; i++)
        points[i] = (struct point){texts[i / 2][i % 2], i / 2, i % 2};
    qsort(points, 2 * (size_t)n, sizeof *points, compare_points);
    for (int k = 1; k < 2 * n; k++)
        if (strcmp(points[k - 1].code, points[k].code) == 0)
            return CODE_TWICE;
    for (int k = 0; k < 2 * n; k++) {
        int i = points[k].entry;
        if (points[k].is_end && i != open)
            return CROSSED;
        if (points[k].is_end) {
            open = parents[open];
            continue;
        }
        if (i != next++)
            return NOT_IN_ORDER;
        enum verdict v = model_start(i, open);
        if (v != SOUND)
            return v;
        open = i;
    }
    return SOUND;
}

static enum verdict model_verdict(void)
{
    enum verdict v;
    uint32_t n;

    if (len < HEADER)
        return NO_HEADER;
    n = get_32(reg);
    if (n == 0 || n > ROWS)
        return n == 0 ? COUNT_0 : COUNT_BIG;
    if (len < HEADER + ENTRY * (size_t)n)
        return CUT_SHORT;
    if (get_32(reg + 4) != 0)
        return NOT_ZERO;
    if ((v = model_identities((int)n)) != SOUND)
        return v;
    for (int i = 0; i < (int)n; i++)
        for (int k = 0; k < 3; k++) {
            if ((v = read_field(field_at(i, k), texts[i][k])) != SOUND)
                return v;
            if (k < 2 && texts[i][k][0] == 0)
                return NO_CODE;
        }
    return model_tour((int)n);
}

/* In a sound register; -1 is none. */
static inline int model_place(uint32_t identity)
{
    int place = (int)get_32(reg) - 1;

    while (place >= 0 && get_32(entry_at(place)) != identity)
        place--;
    return place;
}

/* ---- making registers ---- */

/* The codes along the tour, as text */
static char codes[2 * MOST][LONGEST + 1];

static int compare_codes(const void *x, const void *y)
{
    return strcmp(x, y);
}

/* A part of the stem, then digits, often to the longest; the last is 2 or 3. */
static void draw_code(char *code, const char *stem)
{
    int kept = (int)strlen(stem), n;

    if (kept > 0 && chance(4))
        kept = pick(kept);
    n = kept + 1 + pick(chance(2) ? 12 : LONGEST);
    if (n > LONGEST)
        n = LONGEST;
    memcpy(code, stem, (size_t)kept);
    for (int k = kept; k < n - 1; k++)
        code[k] = (char)('1' + pick(3));
    code[n - 1] = (char)('2' + pick(2));
    code[n] = 0;
}

/* Draws n different codes, with long beginnings in common, some to their last digits, and sorts them. */
static void draw_codes(int n)
{
    char stem[LONGEST + 1];
    int length = chance(3) ? 0 : n > 100 ? pick(111) : chance(2) ? pick(LONGEST) : LONGEST - 1 - pick(4), had = 0;

    for (int k = 0; k < length; k++)
        stem[k] = (char)('1' + (chance(2) ? 0 : pick(3)));
    stem[length] = 0;
    while (had < n) {
        for (int i = had; i < n; i++)
            draw_code(codes[i], stem);
        qsort(codes, (size_t)n, sizeof *codes, compare_codes);
        had = 0;
        for (int i = 0; i < n; i++)
            if (had == 0 || strcmp(codes[had - 1], codes[i]) != 0)
                memmove(codes[had++], codes[i], sizeof *codes);
    }
}

/* The register of the table with the codes as they stand. The table may have several rows of depth 0, and deeper rows than
 * 01 allows. */
static void build(void)
{
    static int open[MOST];
    int level = 0, k = 0;

    rows = (int)(numbers / ROW);
    len = HEADER + ENTRY * (size_t)rows;
    put_32(reg, (uint32_t)rows);
    put_32(reg + 4, 0);
    for (int i = 0; i <= rows; i++) {
        int depth = i < rows ? (int)table[ROW * i + 2] : 0;
        while (level > depth)
            put_field(field_at(open[--level], 1), codes[k++]);
        if (i == rows)
            break;
        put_numbers(reg, i, table[ROW * i], table[ROW * i + 1]);
        put_field(field_at(i, 0), codes[k++]);
        if (depth == 0)
            put_field(field_at(i, 2), "");
        else
            memcpy(field_at(i, 2), field_at(open[depth - 1], 0), FIELD);
        open[level++] = i;
    }
}

static void build_drawn(void)
{
    draw_codes((int)(2 * numbers / ROW));
    build();
}

static void build_first(void)
{
    rows = (int)(numbers / ROW);
    len = HEADER + ENTRY * (size_t)rows;
    if (plant_label(table, numbers, reg, len) != (int64_t)len)
        fail_test("plant_label");
}

static void build_worked(void)
{
    numbers = sizeof worked / sizeof worked[0];
    memcpy(table, worked, sizeof worked);
    build_first();
}

static void make_register(size_t n, enum shape shape, int drawn)
{
    make_table(n, shape, random_factor());
    if (drawn)
        build_drawn();
    else
        build_first();
}

/* Bytes past the counted entries */
static inline void lend_more(size_t more)
{
    for (size_t i = len; i < len + more; i++)
        reg[i] = (uint8_t)draw();
    len += more;
}

/* Mostly one that stands in the register, or stood there before the count was made less. */
static uint32_t random_identity(void)
{
    switch (pick(8)) {
    case 0:
        return 0;
    case 1:
        return (uint32_t)draw();
    case 2:
        return get_32(entry_at(pick(rows))) ^ 1u << pick(32);
    case 3:
        return get_32(entry_at(rows - 1));
    default:
        return get_32(entry_at(pick(rows)));
    }
}
