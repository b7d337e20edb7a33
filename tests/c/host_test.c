/* Drives the calls of plant.h and compares every answer and every lent byte with a model written from 01, the scope paper.
 *
 * The model keeps a code as a row of digits and a tree as parent numbers; it shares nothing with the library. Each call is
 * made twice: its buffers, of exactly the stated length, stand first directly before and then directly behind a page that
 * may not be touched, and inputs stand on a page that may not be written.
 *
 * usage: host_test [seed [rounds]]
 */
#define _DEFAULT_SOURCE
#include "guard.h"
#include "plant.h"
#include "fields.h"

/* 01's numbers, stated here once more on purpose. */
enum { LABEL = 96, SLOTS = 4 * FIELD };

_Static_assert(PLANT_LABEL == LABEL, "size");
_Static_assert(PLANT_TABLE_SIZE == -100001 && PLANT_ROW_DEPTH == -100002 && PLANT_IDENTITY == -100003, "refusals 1 to 3");
_Static_assert(PLANT_ROOM == -100004 && PLANT_NO_REGISTER == -100005 && PLANT_NO_TARGET == -100006, "refusals 4 to 6");
_Static_assert(PLANT_ROOT == -100007 && PLANT_CODE_LENGTH == -100008 && PLANT_CHILDREN == -100009, "refusals 7 to 9");
_Static_assert(PLANT_DEPTH == -100010 && PLANT_NO_LABEL == -100011, "refusals 10 and 11");
_Static_assert(PLANT_NO_CODE == -100012 && PLANT_NOT_BELOW == -100013, "refusals 12 and 13");

static int32_t refused(int number)
{
    return -(100000 + number);
}

/* ---- what is lent, and what has been seen ---- */

struct bytes {
    size_t n;
    uint8_t b[5 * FIELD];
};

enum call { ORDER, ABOVE, PARENT, SIBLING, PACK, UNPACK, BETWEEN, CALLS };
static const char *const call_names[CALLS] = {
    "plant_order", "plant_above", "plant_parent", "plant_sibling", "plant_pack", "plant_unpack", "plant_between",
};

enum seen { MINUS, ZERO, ONE, COUNT, R4, R8, R11, R12, R13, SEEN };
static const char *const seen_names[SEEN] = {"-1", "0", "1", "count", "no. 4", "no. 8", "no. 11", "no. 12", "no. 13"};

/* Which answers each call can give: all of them must come up. */
static const char possible[CALLS][SEEN] = {
    [ORDER] = {[MINUS] = 1, [ZERO] = 1, [ONE] = 1, [R11] = 1},
    [ABOVE] = {[ZERO] = 1, [ONE] = 1, [R11] = 1},
    [PARENT] = {[ZERO] = 1, [ONE] = 1, [R11] = 1},
    [SIBLING] = {[ZERO] = 1, [ONE] = 1, [R11] = 1},
    [PACK] = {[COUNT] = 1, [R12] = 1, [R4] = 1},
    [UNPACK] = {[COUNT] = 1, [R12] = 1, [R4] = 1},
    [BETWEEN] = {[COUNT] = 1, [R12] = 1, [R13] = 1, [R4] = 1, [R8] = 1},
};
static unsigned long tally[CALLS][SEEN];

/* The call under way, for messages. */
static struct {
    const char *group;
    unsigned long number; /* of the case */
    enum call call;
    int side;
    const struct bytes *first, *second;
    size_t room;
} now;

static void print_bytes(const char *name, const struct bytes *x)
{
    if (!x)
        return;
    printf("  %s, %zu bytes:", name, x->n);
    for (size_t i = 0; i < x->n; i++)
        printf("%s%02x", i % FIELD == 0 ? " " : "", x->b[i]);
    printf("\n");
}

static void fail(const char *what, long got, long want)
{
    printf("MISMATCH: %s: %ld, expected %ld\n", what, got, want);
    printf("  seed %llu, rounds %llu, case %lu (%s), %s, buffers %s the guard page\n", seed, rounds, now.number, now.group,
           call_names[now.call], now.side ? "behind" : "before");
    print_bytes("first", now.first);
    print_bytes("second", now.second);
    if (now.call >= PACK)
        printf("  room %zu\n", now.room);
    exit(1);
}

/* The model fails against 01 or against the tree: no word on the library. */
static void fail_model(const char *what)
{
    printf("THE MODEL IS WRONG: %s\n  seed %llu, rounds %llu, case %lu (%s)\n", what, seed, rounds, now.number, now.group);
    exit(1);
}

static void settle(int32_t got, int32_t want)
{
    static const int numbers[SEEN] = {[R4] = 4, [R8] = 8, [R11] = 11, [R12] = 12, [R13] = 13};
    int s = COUNT;

    if (got != want)
        fail("answer", got, want);
    if (now.call < PACK && got >= -1)
        s = MINUS + 1 + got;
    for (int i = R4; i < SEEN; i++)
        if (got == refused(numbers[i]))
            s = i;
    tally[now.call][s]++;
}

/* ---- guarded buffers ---- */

static uint8_t *input_lent[2], *input_filled[2]; /* two views of one page: read only between guards, and writable */
static uint8_t *output_lent, *output_wanted;

static void make_buffers(void)
{
    for (int i = 0; i < 2; i++)
        make_input(page, &input_lent[i], &input_filled[i]);
    output_lent = make_output(page);
    output_wanted = must_have(page);
}

static void on_fault(int signal_number)
{
    (void)signal_number;
    put("FAULT: a byte outside a lent buffer was touched, or an input written: seed ");
    put_number(seed), put(", rounds "), put_number(rounds), put(", case "), put_number(now.number);
    put(" ("), put(now.group), put("), "), put(call_names[now.call]);
    put(now.side ? ", buffers behind the guard page\n" : ", buffers before the guard page\n");
    _exit(1);
}

/* Where n bytes stand on a page: at its end, before a guard, or at its beginning, behind one. */
static size_t offset_of(size_t n)
{
    return now.side ? 0 : page - n;
}

static const uint8_t *lend_input(int which, const struct bytes *x)
{
    size_t at = offset_of(x->n);

    memset(input_filled[which], 0x5a, page);
    memcpy(input_filled[which] + at, x->b, x->n);
    return input_lent[which] + at;
}

static uint8_t *lend_output(size_t n)
{
    size_t at = offset_of(n);

    memset(output_lent, 0xc7, page);
    for (size_t i = 0; i < n; i++)
        output_lent[at + i] = (uint8_t)(0x35 + 29 * i + now.number);
    memcpy(output_wanted, output_lent, page);
    return output_lent + at;
}

/* The whole page is as it was, but for the first n bytes lent, which are the result. */
static void check_output(size_t room, const uint8_t *result, size_t n)
{
    size_t at = offset_of(room);

    memcpy(output_wanted + at, result, n);
    if (memcmp(output_lent, output_wanted, page) == 0)
        return;
    size_t i = 0;
    while (output_lent[i] == output_wanted[i])
        i++;
    printf("Byte %ld of the lent output is wrong after the call.\n", (long)i - (long)at);
    fail("output byte", output_lent[i], output_wanted[i]);
}

/* ---- the model ---- */

/* n is the number of digits; 0 is the open side or empty field, -1 anything unsound. */
struct code {
    int n;
    uint8_t d[LONGEST + 1];
};

static const struct code none = {0, {0}};

static int is_code(const uint8_t *d, size_t n)
{
    if (n < 1 || n > LONGEST)
        return 0;
    for (size_t i = 0; i < n; i++)
        if (d[i] != 1 && d[i] != 2 && d[i] != 3)
            return 0;
    return d[n - 1] != 1;
}

/* -1, 0, 1: the first differing digit decides; a proper prefix is smaller. */
static int compare(const struct code *x, const struct code *y)
{
    int i = 0;

    while (i < x->n && i < y->n && x->d[i] == y->d[i])
        i++;
    if (i == x->n || i == y->n)
        return x->n == y->n ? 0 : i == x->n ? -1 : 1;
    return x->d[i] < y->d[i] ? -1 : 1;
}

static void write_field(const struct code *x, uint8_t *field)
{
    for (int b = 0; b < FIELD; b++) {
        int sum = 0;
        for (int k = 0; k < 4; k++)
            if (4 * b + k < x->n)
                sum += weight[k] * x->d[4 * b + k];
        field[b] = (uint8_t)sum;
    }
}

/* A field holds the code whose field it is, as a whole. */
static struct code read_field(const uint8_t *field, size_t len)
{
    struct code x = none;
    uint8_t back[FIELD];

    if (len == FIELD) {
        while (x.n < SLOTS) {
            int digit = digit_at(field, x.n);
            if (digit == 0)
                break;
            x.d[x.n++] = (uint8_t)digit;
        }
        if (x.n == 0 || is_code(x.d, (size_t)x.n)) {
            write_field(&x, back);
            if (memcmp(back, field, FIELD) == 0)
                return x;
        }
    }
    x.n = -1;
    return x;
}

struct label {
    struct code start, end, parent;
};

static int read_label(const struct bytes *x, struct label *u)
{
    if (x->n != LABEL)
        return 0;
    u->start = read_field(x->b, FIELD);
    u->end = read_field(x->b + FIELD, FIELD);
    u->parent = read_field(x->b + 2 * FIELD, FIELD);
    if (u->start.n < 1 || u->end.n < 1 || compare(&u->start, &u->end) >= 0)
        return 0;
    return u->parent.n == 0 || (u->parent.n > 0 && compare(&u->parent, &u->start) < 0);
}

/* The answers to the four questions, by call. */
static void model_answers(const struct bytes *x, const struct bytes *y, int32_t *answers)
{
    struct label u, v;

    if (!read_label(x, &u) || !read_label(y, &v)) {
        for (int q = ORDER; q <= SIBLING; q++)
            answers[q] = refused(11);
        return;
    }
    answers[ORDER] = compare(&u.start, &v.start);
    answers[ABOVE] = compare(&u.start, &v.start) < 0 && compare(&v.end, &u.end) < 0;
    answers[PARENT] = v.parent.n > 0 && compare(&v.parent, &u.start) == 0;
    answers[SIBLING] = u.parent.n > 0 && v.parent.n > 0 && compare(&u.parent, &v.parent) == 0
                       && compare(&u.start, &v.start) != 0;
}

/* The one code between two sides in order; may have a digit too many. */
static struct code model_between(const struct code *l, const struct code *r)
{
    struct code x = l->n < r->n ? *r : *l;
    int last = x.n - 1;

    if (l->n < r->n) {
        if (x.d[last] == 2) {
            x.d[last] = 1;
            x.d[x.n++] = 2;
        } else {
            x.d[last] = 2;
        }
    } else if (l->n == r->n || x.d[last] == 3) {
        x.d[x.n++] = 2;
    } else {
        x.d[last] = 3;
    }
    if (compare(l, &x) >= 0 || (r->n > 0 && compare(&x, r) >= 0))
        fail_model("a code between does not lie between its sides");
    return x;
}

/* ---- one case of each call ---- */

static void begin(const struct bytes *first, const struct bytes *second, size_t room)
{
    now.number++;
    now.side = 0;
    now.first = first;
    now.second = second;
    now.room = room;
}

static int32_t question(enum call q, const uint8_t *u, size_t u_len, const uint8_t *v, size_t v_len)
{
    now.call = q;
    switch (q) {
    case ORDER:
        return plant_order(u, u_len, v, v_len);
    case ABOVE:
        return plant_above(u, u_len, v, v_len);
    case PARENT:
        return plant_parent(u, u_len, v, v_len);
    default:
        return plant_sibling(u, u_len, v, v_len);
    }
}

/* The four questions; tree, if given, has the answers that the tree gives without any code. */
static void ask_tree(const struct bytes *u, const struct bytes *v, const int32_t *tree)
{
    int32_t want[SIBLING + 1];

    begin(u, v, 0);
    model_answers(u, v, want);
    for (int q = ORDER; tree && q <= SIBLING; q++)
        if (want[q] != tree[q])
            fail_model("an answer differs from the tree's");
    for (now.side = 0; now.side < 2; now.side++) {
        const uint8_t *lent_u = lend_input(0, u), *lent_v = lend_input(1, v);
        for (int q = ORDER; q <= SIBLING; q++)
            settle(question((enum call)q, lent_u, u->n, lent_v, v->n), want[q]);
    }
}

static void ask(const struct bytes *u, const struct bytes *v)
{
    ask_tree(u, v, NULL);
}

/* Both labels inside one buffer. */
static void ask_inside(const struct bytes *both, size_t u_at, size_t v_at)
{
    struct bytes u = {.n = LABEL}, v = {.n = LABEL};
    int32_t want[SIBLING + 1];

    memcpy(u.b, both->b + u_at, LABEL);
    memcpy(v.b, both->b + v_at, LABEL);
    begin(&u, &v, 0);
    model_answers(&u, &v, want);
    for (now.side = 0; now.side < 2; now.side++) {
        const uint8_t *lent = lend_input(0, both);
        for (int q = ORDER; q <= SIBLING; q++)
            settle(question((enum call)q, lent + u_at, LABEL, lent + v_at, LABEL), want[q]);
    }
}

static void try_pack(const struct bytes *digits, size_t room)
{
    int32_t want = !is_code(digits->b, digits->n) ? refused(12) : room < FIELD ? refused(4) : (int32_t)digits->n;
    struct code x = none;
    uint8_t field[FIELD];

    begin(digits, NULL, room);
    now.call = PACK;
    if (want > 0) {
        x.n = want;
        memcpy(x.d, digits->b, digits->n);
    }
    write_field(&x, field);
    for (now.side = 0; now.side < 2; now.side++) {
        const uint8_t *lent = lend_input(0, digits);
        settle(plant_pack(lent, digits->n, lend_output(room), room), want);
        check_output(room, field, want > 0 ? FIELD : 0);
    }
}

static void try_unpack(const struct bytes *field, size_t room)
{
    struct code x = read_field(field->b, field->n);
    int32_t want = x.n < 1 ? refused(12) : room < (size_t)x.n ? refused(4) : x.n;

    begin(field, NULL, room);
    now.call = UNPACK;
    for (now.side = 0; now.side < 2; now.side++) {
        const uint8_t *lent = lend_input(0, field);
        settle(plant_unpack(lent, field->n, lend_output(room), room), want);
        check_output(room, x.d, want > 0 ? (size_t)want : 0);
    }
}

static void try_between(const struct bytes *left, const struct bytes *right, size_t room)
{
    struct code l = read_field(left->b, left->n), r = read_field(right->b, right->n), x = none;
    uint8_t field[FIELD];
    int32_t want;

    begin(left, right, room);
    now.call = BETWEEN;
    if (l.n < 0 || r.n < 0) {
        want = refused(12);
    } else if (l.n > 0 && r.n > 0 && compare(&l, &r) >= 0) {
        want = refused(13);
    } else {
        x = model_between(&l, &r);
        want = room < FIELD ? refused(4) : x.n > LONGEST ? refused(8) : x.n;
    }
    write_field(&x, field);
    for (now.side = 0; now.side < 2; now.side++) {
        const uint8_t *lent_l = lend_input(0, left);
        /* the same field on both sides is lent once */
        const uint8_t *lent_r = left == right ? lent_l : lend_input(1, right);
        settle(plant_between(lent_l, left->n, lent_r, right->n, lend_output(room), room), want);
        check_output(room, field, want > 0 ? FIELD : 0);
    }
}

/* ---- making codes, fields and labels ---- */

static struct code code_of(const char *text)
{
    struct code x = none;

    while (text[x.n]) {
        x.d[x.n] = (uint8_t)(text[x.n] - '0');
        x.n++;
    }
    return x;
}

/* n digits, all the same but the last one */
static struct code long_code(int n, int digit, int last)
{
    struct code x = {.n = n};

    memset(x.d, digit, (size_t)n);
    x.d[n - 1] = (uint8_t)last;
    return x;
}

static struct bytes digits_of(const struct code *x)
{
    struct bytes b = {.n = (size_t)x->n};

    memcpy(b.b, x->d, b.n);
    return b;
}

static struct bytes field_of(const struct code *x)
{
    struct bytes b = {.n = FIELD};

    write_field(x, b.b);
    return b;
}

static struct bytes label_of(const struct code *start, const struct code *end, const struct code *parent)
{
    struct bytes b = {.n = LABEL};

    write_field(start, b.b);
    write_field(end, b.b + FIELD);
    write_field(parent, b.b + 2 * FIELD);
    return b;
}

static struct bytes label_of_text(const char *start, const char *end, const char *parent)
{
    struct code s = code_of(start), e = code_of(end), p = code_of(parent);

    return label_of(&s, &e, &p);
}

static struct bytes of_length(struct bytes b, size_t n)
{
    b.n = n;
    return b;
}

/* Without zero fill a code of n digits takes n div 4 + 1 bytes. */
static size_t cut_size(const struct code *x)
{
    return (size_t)(x->n / 4 + 1);
}

/* ---- fixed cases ---- */

/* Answers from parent numbers alone; entries are numbered in document order, the root's parent is -1. */
static void tree_answers(const int *parents, int u, int v, int32_t *answers)
{
    answers[ORDER] = u < v ? -1 : u > v;
    answers[ABOVE] = 0;
    for (int a = parents[v]; a >= 0; a = parents[a])
        answers[ABOVE] |= a == u;
    answers[PARENT] = parents[v] == u;
    answers[SIBLING] = u != v && parents[u] >= 0 && parents[u] == parents[v];
}

static void worked_example(void)
{
    static const int parents[4] = {-1, 0, 0, 2};
    struct bytes labels[4] = {
        label_of_text("12", "33", ""),
        label_of_text("13", "2", "12"),
        label_of_text("22", "32", "12"),
        label_of_text("23", "3", "22"),
    };
    int32_t answers[SIBLING + 1];

    now.group = "worked example";
    for (int u = 0; u < 4; u++)
        for (int v = 0; v < 4; v++) {
            tree_answers(parents, u, v, answers);
            ask_tree(&labels[u], &labels[v], answers);
        }
}

static void vector_between(const char *left, const char *right, const char *expected)
{
    struct code l = code_of(left), r = code_of(right), x = code_of(expected), made = model_between(&l, &r);
    struct bytes fl = field_of(&l), fr = field_of(&r);

    if (compare(&made, &x) != 0)
        fail_model("a code between differs from 01's");
    try_between(&fl, &fr, FIELD);
}

static void vector_pack(const char *digits, int first, int second)
{
    struct code x = code_of(digits);
    struct bytes d = digits_of(&x), f = field_of(&x);

    for (int i = 0; i < FIELD; i++)
        if (f.b[i] != (i == 0 ? first : i == 1 ? second : 0))
            fail_model("packed bytes differ from 01's");
    try_pack(&d, FIELD);
    try_unpack(&f, d.n);
}

/* 01, reckoned by hand: P2 to P14 where they speak of these calls. */
static void reckoned_by_hand(void)
{
    struct bytes u = label_of_text("12", "3", ""), v = label_of_text("122", "2", "12");
    static const int32_t parent_and_child[SIBLING + 1] = {[ORDER] = -1, [ABOVE] = 1, [PARENT] = 1, [SIBLING] = 0};

    now.group = "reckoned by hand";
    vector_between("2", "3", "22");
    vector_between("", "", "2");
    vector_between("", "2", "12");
    vector_between("2", "23", "22");
    vector_between("22", "3", "23");
    vector_between("23", "3", "232");
    vector_between("22", "23", "222"), vector_between("222", "23", "223");
    vector_between("2", "22", "212"), vector_between("212", "22", "213");
    vector_between("13", "2", "132"), vector_between("132", "2", "133");
    vector_pack("12", 0x60, 0);
    vector_pack("223", 0xac, 0);
    vector_pack("2222", 0xaa, 0);
    ask_tree(&u, &v, parent_and_child);
}

/* All codes of at most 3 digits and the open side, each with each: order, then between. */
static void small_codes(void)
{
    struct code codes[27] = {none};
    int n = 1;

    now.group = "all codes of at most 3 digits";
    for (int length = 1; length <= 3; length++)
        for (int k = 0; k < 27; k++) {
            struct code x = {.n = length, .d = {(uint8_t)(k % 3 + 1), (uint8_t)(k / 3 % 3 + 1), (uint8_t)(k / 9 + 1)}};
            if (is_code(x.d, (size_t)length) && (length == 3 || k < (length == 2 ? 9 : 3)))
                codes[n++] = x;
        }
    for (int i = 0; i < n; i++)
        for (int j = 0; j < n; j++) {
            struct code top = code_of("3333");
            struct bytes l = field_of(&codes[i]), r = field_of(&codes[j]);
            struct bytes u = label_of(&codes[i], &top, &none), v = label_of(&codes[j], &top, &codes[i]);
            try_between(&l, &r, FIELD);
            ask(&u, &v);
        }
}

static void every_length(void)
{
    now.group = "every length";
    for (int n = 1; n <= LONGEST + 1; n++) {
        for (int last = 1; last <= 3; last++) {
            struct code x = long_code(n, 1 + n % 3, last);
            struct bytes d = digits_of(&x), f = field_of(&x);
            try_pack(&d, FIELD);
            for (int more = -1; more <= 1; more++)
                try_unpack(&f, (size_t)(n + more));
        }
        if (n <= LONGEST) {
            struct code x = long_code(n, 2, 2), y = long_code(n, 2, 3);
            struct bytes l = field_of(&x), r = field_of(&y), open = field_of(&none);
            try_between(&l, &r, FIELD);
            try_between(&open, &l, FIELD);
            try_between(&open, &r, FIELD + 1);
            try_between(&l, &open, FIELD);
            try_between(&r, &open, FIELD + 1);
        }
    }
}

/* Two codes of 127 digits that differ in one digit only, and such a code against its beginnings. */
static void every_place(void)
{
    struct code high = code_of("3"), low = long_code(LONGEST, 2, 2);
    struct code above_high = code_of("33");

    now.group = "one digit apart";
    for (int i = 0; i < LONGEST; i++) {
        struct code other = low, cut = long_code(i + 1, 2, 2);
        other.d[i] = 3;
        struct bytes u = label_of(&low, &above_high, &none), v = label_of(&other, &high, &none);
        struct bytes child = label_of(&high, &above_high, &other), twin = label_of(&high, &above_high, &low);
        struct bytes begun = label_of(&cut, &high, &none), of_cut = label_of(&high, &above_high, &cut);
        ask(&u, &v), ask(&v, &u);
        ask(&u, &child), ask(&u, &twin), ask(&v, &child);
        ask(&child, &twin);
        ask(&u, &begun), ask(&begun, &u), ask(&u, &of_cut), ask(&begun, &of_cut), ask(&of_cut, &twin);
        struct bytes l = field_of(&low), r = field_of(&other), c = field_of(&cut);
        try_between(&l, &r, FIELD), try_between(&r, &l, FIELD), try_between(&c, &l, FIELD), try_between(&c, &r, FIELD);
    }
}

static void limits(void)
{
    struct code two = code_of("2"), three = code_of("3");
    struct code most = long_code(LONGEST, 2, 2), below_most = long_code(LONGEST - 1, 2, 2), most_raised = long_code(LONGEST, 2, 3);
    struct bytes f2 = field_of(&two), f3 = field_of(&three), open = field_of(&none), fm = field_of(&most);
    struct bytes fb = field_of(&below_most), fr = field_of(&most_raised), full = f2, digits = {.n = 0}, nothing = {.n = 0};

    now.group = "limits";
    memset(digits.b, 2, sizeof digits.b);
    memset(full.b, 0xaa, FIELD);
    for (size_t room = FIELD - 1; room <= FIELD + 1; room++) {
        for (size_t n = LONGEST - 1; n <= LONGEST + 2; n++) {
            digits.n = n;
            try_pack(&digits, room);
        }
        try_pack(&nothing, room);
        try_between(&f2, &f3, room);
        try_between(&open, &open, room);
        try_between(&open, &fm, room), try_between(&open, &fr, room), try_between(&open, &fb, room);
        try_between(&fm, &open, room), try_between(&fr, &open, room), try_between(&fb, &f3, room);
        try_between(&fm, &fr, room);
        /* refusals one before the other: 12, 13, 4, 8 */
        try_between(&full, &f2, room), try_between(&f2, &full, room), try_between(&f3, &f2, room);
        try_between(&f2, &f2, room), try_between(&open, &full, room), try_between(&fr, &fm, room);
        try_between(&full, &full, room);
    }
    for (size_t len = FIELD - 1; len <= FIELD + 1; len++) {
        struct bytes cut2 = of_length(f2, len), cut3 = of_length(f3, len), cut_open = of_length(open, len);
        struct bytes cut_most = of_length(fm, len), cut_full = of_length(full, len);
        for (size_t room = 0; room <= 2; room++)
            try_unpack(&cut2, room), try_unpack(&cut_open, room);
        for (size_t room = LONGEST - 1; room <= LONGEST + 1; room++)
            try_unpack(&cut_most, room), try_unpack(&cut_full, room), try_unpack(&cut_open, room);
        try_between(&cut2, &f3, FIELD), try_between(&f2, &cut3, FIELD), try_between(&cut2, &cut3, FIELD);
        try_between(&cut_open, &f2, FIELD), try_between(&f2, &cut_open, FIELD), try_between(&cut_open, &cut_open, 0);
    }
    struct bytes u = label_of(&two, &three, &none), v = label_of(&most, &three, &two);
    for (size_t len = LABEL - 1; len <= LABEL + 1; len++) {
        struct bytes cut_u = of_length(u, len), cut_v = of_length(v, len);
        ask(&cut_u, &v), ask(&u, &cut_v), ask(&cut_u, &cut_v);
    }
    ask(&nothing, &u), ask(&u, &nothing), ask(&nothing, &nothing);
}

/* 01, easy errors: cut codes, two empty parent starts, an entry beside itself, a parent start that is not below. */
static void easy_errors(void)
{
    struct code two = code_of("2"), three = code_of("3"), parent = code_of("1222");
    struct bytes u = label_of(&parent, &three, &none), v = label_of(&two, &three, &parent), cut = v, w;

    now.group = "easy errors";
    ask(&u, &v);
    for (size_t n = 0; n <= FIELD; n++) {
        cut.n = 2 * FIELD + n;
        ask(&u, &cut), ask(&cut, &v), ask(&v, &cut);
    }
    for (size_t i = cut_size(&parent); i < FIELD; i++) {
        w = v;
        w.b[2 * FIELD + i] = 0x80; /* not filled with zeros */
        ask(&u, &w), ask(&v, &w);
    }
    for (int n = 1; n < parent.n; n++) {
        struct code shorter = parent;
        shorter.n = n;
        w = label_of(&two, &three, &shorter);
        ask(&u, &w), ask(&v, &w);
    }
    w = label_of(&two, &three, &none);
    ask(&u, &w), ask(&w, &u), ask(&w, &w);
    ask(&v, &v), ask_inside(&v, 0, 0), ask_inside(&u, 0, 0);
    w = label_of(&two, &three, &two);
    ask(&w, &w), ask(&w, &v), ask(&v, &w);
    w = label_of(&two, &two, &none);
    ask(&w, &u), ask(&u, &w);
    w = label_of(&three, &two, &none);
    ask(&w, &u), ask(&u, &w);
    w = label_of(&none, &two, &none);
    ask(&w, &u), ask(&u, &w);
    w = label_of(&two, &none, &none);
    ask(&w, &u), ask(&u, &w);
}

static void flip(uint8_t *b, int bit)
{
    b[bit / 8] ^= (uint8_t)(1 << bit % 8);
}

static void every_bit(void)
{
    struct code codes[3] = {code_of("2"), code_of("3122"), long_code(LONGEST, 2, 2)};
    struct code top = code_of("33"), over = code_of("333");

    now.group = "one bit changed";
    for (int c = 0; c < 3; c++) {
        struct bytes u = label_of(&codes[c], &top, &none);
        for (int bit = 0; bit < 8 * FIELD; bit++) {
            struct bytes f = field_of(&codes[c]), v = label_of(&top, &over, &codes[c]);
            flip(f.b, bit);
            flip(v.b + 2 * FIELD, bit);
            try_unpack(&f, LONGEST);
            ask(&u, &v);
        }
    }
}

/* ---- random cases ---- */

static int random_length(void)
{
    switch (pick(4)) {
    case 0:
        return 1 + pick(6);
    case 1: /* about the ends of bytes, of eight bytes and of the field */
        return 32 * (1 + pick(4)) - 1 - pick(chance(2) ? 2 : 8);
    case 2:
        return LONGEST - pick(4);
    default:
        return 1 + pick(LONGEST);
    }
}

static void fill_digits(struct code *x, int from)
{
    for (int i = from; i < x->n; i++)
        x->d[i] = (uint8_t)(1 + pick(3));
    if (x->d[x->n - 1] == 1)
        x->d[x->n - 1] = (uint8_t)(2 + pick(2));
}

static struct code random_code(void)
{
    struct code x = {.n = random_length()};

    fill_digits(&x, 0);
    return x;
}

/* A code with a beginning in common, often a long one. */
static struct code near_code(const struct code *x)
{
    struct code y = *x;
    int at = chance(3) ? pick(y.n) : y.n - 1 - pick(y.n < 5 ? y.n : 5);

    switch (pick(4)) {
    case 0: /* one digit another */
        y.d[at] = (uint8_t)(1 + pick(3));
        break;
    case 1: /* shorter */
        y.n = at + 1;
        break;
    case 2: /* longer */
        y.n += 1 + pick(4);
        if (y.n > LONGEST)
            y.n = LONGEST;
        fill_digits(&y, x->n < y.n ? x->n : y.n - 1);
        break;
    default: /* another end */
        y.n = at + 1 + pick(LONGEST - at);
        fill_digits(&y, at);
    }
    fill_digits(&y, y.n);
    return y;
}

/* n distinct codes, rising. */
static void random_codes(struct code *codes, int n)
{
    int k = 0;

    while (k < n) {
        struct code x = k == 0 || chance(5) ? random_code() : near_code(&codes[pick(k)]);
        int at = k;
        while (at > 0 && compare(&x, &codes[at - 1]) < 0)
            at--;
        if (at > 0 && compare(&x, &codes[at - 1]) == 0)
            continue;
        memmove(codes + at + 1, codes + at, (size_t)(k - at) * sizeof *codes);
        codes[at] = x;
        k++;
    }
}

static struct bytes random_bytes(size_t n)
{
    struct bytes b = {.n = n};

    for (size_t i = 0; i < n; i++)
        b.b[i] = (uint8_t)draw();
    return b;
}

/* The length that matters, one short, one more, or any up to 130. */
static size_t random_room(size_t needed)
{
    switch (pick(6)) {
    case 0:
        return needed > 0 ? needed - 1 : 0;
    case 1:
        return needed + 1;
    case 2:
        return (size_t)pick(131);
    default:
        return needed;
    }
}

enum { MOST = 8 };

/* A random tree with labels along a rising tour; pairs of its entries are asked against the tree. */
static void random_tree(void)
{
    struct code codes[2 * MOST];
    struct bytes labels[MOST];
    int parents[MOST] = {-1}, start[MOST], end[MOST], n = 2 + pick(MOST - 1), tour = 0, at;
    int32_t answers[SIBLING + 1];

    now.group = "random tree";
    random_codes(codes, 2 * n);
    start[0] = tour++;
    at = 0;
    for (int i = 1; i < n; i++) {
        while (at > 0 && chance(2)) {
            end[at] = tour++;
            at = parents[at];
        }
        parents[i] = at;
        start[i] = tour++;
        at = i;
    }
    for (; at >= 0; at = parents[at])
        end[at] = tour++;
    for (int i = 0; i < n; i++)
        labels[i] = label_of(&codes[start[i]], &codes[end[i]], i ? &codes[start[parents[i]]] : &none);
    for (int k = 0; k < 4; k++) {
        int u = pick(n), v = pick(n);
        tree_answers(parents, u, v, answers);
        ask_tree(&labels[u], &labels[v], answers);
    }
}

static struct bytes pick_label(const struct code *codes, int n)
{
    int s = pick(n - 1), e = s + 1 + pick(n - 1 - s);

    return label_of(&codes[s], &codes[e], s == 0 || chance(4) ? &none : &codes[pick(s)]);
}

static void swap_fields(struct bytes *x, int i, int j)
{
    uint8_t t[FIELD];

    memcpy(t, x->b + i * FIELD, FIELD);
    memcpy(x->b + i * FIELD, x->b + j * FIELD, FIELD);
    memcpy(x->b + j * FIELD, t, FIELD);
}

/* What comes after a code's separator in a field is set to anything but zeros. */
static void spoil_fill(uint8_t *field)
{
    struct code x = read_field(field, FIELD);
    size_t at = x.n < 0 ? 0 : cut_size(&x);

    if (at < FIELD)
        field[at + (size_t)pick((int)(FIELD - at))] = (uint8_t)(1 + pick(255));
}

static void damage_label(struct bytes *x, const struct code *codes, int n)
{
    int f = pick(3);
    struct bytes tight = {.n = 0};

    switch (pick(8)) {
    case 0:
        flip(x->b, pick(8 * LABEL));
        break;
    case 1: /* a field: another code, empty, or any bytes */
        write_field(chance(3) ? &none : &codes[pick(n)], x->b + f * FIELD);
        break;
    case 2:
        for (int i = 0; i < FIELD; i++)
            x->b[f * FIELD + i] = (uint8_t)draw();
        break;
    case 3:
        swap_fields(x, f, (f + 1) % 3);
        break;
    case 4:
        spoil_fill(x->b + f * FIELD);
        break;
    case 5: /* cut or grown */
        x->n = (size_t)(LABEL - 2 + pick(5));
        break;
    case 6: /* the parent start cut after its separator */
        for (int i = 0; i < 3; i++) {
            struct code c = read_field(x->b + i * FIELD, FIELD);
            size_t size = i < 2 ? FIELD : cut_size(&c);
            memcpy(tight.b + tight.n, x->b + i * FIELD, size);
            tight.n += size;
        }
        *x = tight;
        break;
    default: /* all three codes without their fill, one behind the other, zeros after them */
        for (int i = 0; i < 3; i++) {
            struct code c = read_field(x->b + i * FIELD, FIELD);
            memcpy(tight.b + tight.n, x->b + i * FIELD, cut_size(&c));
            tight.n += cut_size(&c);
        }
        tight.n = LABEL;
        *x = tight;
    }
}

/* Start, end and parent start of one label; from the last of them on, start, end and parent start of its parent. */
static struct bytes five_fields(const struct code *codes)
{
    struct bytes u = label_of(&codes[3], &codes[4], &codes[1]);
    struct bytes v = label_of(&codes[1], &codes[2 + pick(MOST - 2)], chance(3) ? &none : &codes[0]);

    memcpy(u.b + 2 * FIELD, v.b, LABEL);
    u.n = 5 * FIELD;
    return u;
}

static void random_labels(void)
{
    struct code codes[MOST];
    struct bytes u, v, w;

    now.group = "random labels";
    random_codes(codes, MOST);
    for (int k = 0; k < 3; k++) {
        u = pick_label(codes, MOST);
        v = pick_label(codes, MOST);
        ask(&u, &v);
    }
    ask(&u, &u);
    now.group = "damaged labels";
    w = u;
    damage_label(&w, codes, MOST);
    ask(&w, &v), ask(&v, &w);
    if (chance(2))
        damage_label(&v, codes, MOST);
    ask(&u, &v), ask(&w, &v), ask(&w, &w);
    now.group = "overlapping labels";
    ask_inside(&u, 0, 0);
    v = five_fields(codes);
    ask_inside(&v, 0, 2 * FIELD), ask_inside(&v, 2 * FIELD, 0);
    ask_inside(&v, 0, (size_t)pick(2 * FIELD)), ask_inside(&v, (size_t)pick(2 * FIELD), 0);
    now.group = "random bytes as labels";
    w = random_bytes((size_t)pick(131));
    ask(&w, &u), ask(&u, &w);
}

static void random_packing(void)
{
    struct code x = random_code();
    struct bytes d = digits_of(&x), grown = d, any = random_bytes((size_t)pick(131));

    now.group = "random digits";
    try_pack(&d, random_room(FIELD));
    d.b[chance(3) ? d.n - 1 : (size_t)pick((int)d.n)] = (uint8_t)(chance(2) ? pick(5) : pick(256));
    try_pack(&d, random_room(FIELD));
    grown.n += (size_t)pick(30);
    memset(grown.b + x.n, 2 + pick(2), grown.n - (size_t)x.n);
    try_pack(&grown, random_room(FIELD));
    try_pack(&any, random_room(FIELD));
}

static void random_unpacking(void)
{
    struct code x = random_code();
    struct bytes f = field_of(&x), cut = of_length(f, cut_size(&x)), any = random_bytes(random_room(FIELD));
    size_t n = (size_t)x.n;

    now.group = "random fields";
    try_unpack(&f, random_room(n));
    try_unpack(&cut, random_room(n));
    spoil_fill(cut.b);
    cut.n = FIELD;
    try_unpack(&cut, random_room(n));
    flip(f.b, pick(8 * FIELD));
    try_unpack(&f, random_room(n));
    f.n = random_room(FIELD);
    try_unpack(&f, random_room(n));
    try_unpack(&any, random_room(n));
}

static void random_between(void)
{
    struct code codes[3];
    struct bytes l, r, open = field_of(&none), any = random_bytes(random_room(FIELD));

    now.group = "random sides";
    random_codes(codes, 3);
    l = field_of(&codes[pick(2)]);
    r = field_of(&codes[2]);
    try_between(&l, &r, random_room(FIELD));
    try_between(&r, &l, random_room(FIELD));
    try_between(&l, &l, random_room(FIELD));
    try_between(&open, &r, random_room(FIELD));
    try_between(&l, &open, random_room(FIELD));
    try_between(&l, &any, random_room(FIELD));
    try_between(&any, &any, random_room(FIELD));
    if (chance(2))
        flip(l.b, pick(8 * FIELD));
    else
        r.n = chance(2) ? cut_size(&codes[2]) : random_room(FIELD);
    try_between(&l, &r, random_room(FIELD));
}

/* ---- the whole ---- */

/* Prints what was seen and answers how many possible answers never came. */
static int report(void)
{
    unsigned long total[SEEN] = {0}, all = 0;
    int missing = 0;

    printf("%-14s %8s", "call", "calls");
    for (int s = 0; s < SEEN; s++)
        printf(" %8s", seen_names[s]);
    printf("\n");
    for (int c = 0; c < CALLS; c++) {
        unsigned long calls = 0;
        for (int s = 0; s < SEEN; s++) {
            calls += tally[c][s];
            total[s] += tally[c][s];
        }
        all += calls;
        printf("%-14s %8lu", call_names[c], calls);
        for (int s = 0; s < SEEN; s++)
            printf(possible[c][s] ? " %8lu" : "        -", tally[c][s]);
        printf("\n");
    }
    printf("%-14s %8lu", "all", all);
    for (int s = 0; s < SEEN; s++)
        printf(" %8lu", total[s]);
    printf("\n");
    for (int c = 0; c < CALLS; c++)
        for (int s = 0; s < SEEN; s++)
            if (possible[c][s] && tally[c][s] == 0) {
                printf("NEVER SEEN: %s, %s\n", call_names[c], seen_names[s]);
                missing++;
            }
    return missing;
}

int main(int argc, char **argv)
{
    start_test(argc, argv, 1500, on_fault);
    make_buffers();

    worked_example();
    reckoned_by_hand();
    small_codes();
    limits();
    easy_errors();
    every_length();
    every_place();
    every_bit();
    for (unsigned long long i = 0; i < rounds; i++) {
        random_tree();
        random_labels();
        random_packing();
        random_unpacking();
        random_between();
    }
    if (report() != 0)
        return 1;
    printf("%lu cases, each before and behind a guard page: no mismatch\n", now.number);
    return 0;
}
