/* Drives the edits of a register and compares their answers and every lent byte with a model written from 01, the scope paper.
 *
 * The model is a tree: each entry has its parent, its children in a list, and its codes as text. An edit is made on the tree;
 * the neighbours of a new entry are read off the whole tour, and the register is written anew from the tree. It shares nothing
 * with the library. Before each call the register is also read back along its codes, which must give the same tree. Each call
 * is made twice: the register, of exactly the stated length, stands first directly before and then directly behind a page that
 * may not be touched. After an accepted edit the questions are asked of pairs of entries and compared with the tree.
 *
 * usage: edit_test [seed [rounds]]
 */
#define _DEFAULT_SOURCE
#include "guard.h"
#include "plant.h"
#include "fields.h"
#include "tables.h"
#include "codes.h"
#include "output.h"
#include "registers.h"
#include "damage.h"

enum { LABEL = 3 * FIELD };

_Static_assert(PLANT_LABEL == LABEL, "sizes");

/* ---- the edit under way, and what has been seen ---- */

enum call { FIRST, LAST, BEFORE, AFTER, DELETE, CALLS };
static const char *const call_names[CALLS] = {
    "plant_insert_first", "plant_insert_last", "plant_insert_before", "plant_insert_after", "plant_delete",
};

static struct {
    enum call call;
    uint32_t target, identity, tag;
} edit;

/* By refusal number; 0 is accepted. Which numbers each call can give: all of them must come up. */
enum { NUMBERS = 11 };
static const char possible[CALLS][NUMBERS] = {
    [FIRST] = {[0] = 1, [3] = 1, [4] = 1, [5] = 1, [6] = 1, [8] = 1, [10] = 1},
    [LAST] = {[0] = 1, [3] = 1, [4] = 1, [5] = 1, [6] = 1, [8] = 1, [10] = 1},
    [BEFORE] = {[0] = 1, [3] = 1, [4] = 1, [5] = 1, [6] = 1, [7] = 1, [8] = 1},
    [AFTER] = {[0] = 1, [3] = 1, [4] = 1, [5] = 1, [6] = 1, [7] = 1, [8] = 1},
    [DELETE] = {[0] = 1, [5] = 1, [6] = 1, [7] = 1, [9] = 1},
};
static unsigned long tally[CALLS][NUMBERS];

enum seen {
    RIGHT_2, RIGHT_3, EQUAL, LEFT_2, LEFT_3, END_TOO_LONG, OVER_CHILDREN, IDENTITY_AGAIN, DAMAGED_SOUND, EARLIER, SAME, LATER,
    IS_ABOVE, IS_PARENT, IS_SIBLING, SEEN
};
static const char *const seen_names[SEEN] = {
    "longer right neighbour ends in 2", "in 3", "equal lengths", "longer left neighbour ends in 2", "in 3",
    "no. 8 by the end alone", "after an entry with children", "a deleted identity put in again", "damaged and still sound",
    "order -1", "0", "1", "above", "parent", "sibling",
};
static unsigned long seen[SEEN];

static void print_case(void)
{
    print_place();
    printf("  %s, target %u", call_names[edit.call], edit.target);
    if (edit.call != DELETE)
        printf(", identity %u, tag %u", edit.identity, edit.tag);
    printf("; before the call:\n");
    print_register();
}

/* ---- the model: a tree and its tour ---- */

struct entry {
    uint32_t identity, tag;
    char start[LONGEST + 1], end[LONGEST + 1];
    struct entry *parent, *child, *next; /* the first child, the next sibling */
    int place;
};

static struct entry *root, *in_order[MOST];
static const char *tour[2 * MOST];
static int count, met; /* entries in document order, codes along the tour */
static int most;       /* digits that 01's demand on lengths allows by now */

static void walk(struct entry *x)
{
    x->place = count;
    in_order[count++] = x;
    tour[met++] = x->start;
    for (struct entry *child = x->child; child; child = child->next)
        walk(child);
    tour[met++] = x->end;
}

static void survey(void)
{
    count = met = 0;
    walk(root);
}

static struct entry *find(uint32_t identity)
{
    for (int i = 0; i < count; i++)
        if (in_order[i]->identity == identity)
            return in_order[i];
    return NULL;
}

static int depth_of(const struct entry *x)
{
    int depth = 0;

    while ((x = x->parent))
        depth++;
    return depth;
}

/* Where in a list of children a new entry comes. */
static struct entry **gap(enum call call, struct entry *target)
{
    struct entry **link = call == LAST ? &target->child : call == BEFORE ? &target->parent->child : NULL;

    if (call == FIRST)
        return &target->child;
    if (call == AFTER)
        return &target->next;
    while (*link && (call == LAST || *link != target))
        link = &(*link)->next;
    return link;
}

static struct entry *put_in(struct entry **link, struct entry *parent, uint32_t identity, uint32_t tag)
{
    struct entry *x = must_have(sizeof *x);

    *x = (struct entry){.identity = identity, .tag = tag, .parent = parent, .next = *link};
    *link = x;
    return x;
}

static void take_out(struct entry *x)
{
    *gap(BEFORE, x) = x->next;
    free(x);
    survey();
}

/* The tree of the register as it stands, which is sound: parents and codes are those just read for the verdict. */
static void take_over(void)
{
    while (count > 0)
        free(in_order[--count]);
    root = NULL;
    rows = (int)get_32(reg);
    for (int i = 0; i < rows; i++) {
        struct entry *parent = parents[i] < 0 ? NULL : in_order[parents[i]];
        struct entry **link = parent ? gap(LAST, parent) : &root;
        in_order[i] = put_in(link, parent, get_32(entry_at(i)), get_32(entry_at(i) + 4));
        strcpy(in_order[i]->start, texts[i][0]);
        strcpy(in_order[i]->end, texts[i][1]);
    }
    survey();
    most = LONGEST;
}

/* The register of the tree */
static void write_tree(uint8_t *to)
{
    put_32(to, (uint32_t)count);
    put_32(to + 4, 0);
    for (int i = 0; i < count; i++) {
        const struct entry *x = in_order[i];
        put_numbers(to, i, x->identity, x->tag);
        put_label(to, i, x->start, x->end, x->parent ? x->parent->start : "");
    }
}

/* ---- the model: edits ---- */

static void note_between(const char *left, const char *right)
{
    size_t l = strlen(left), r = strlen(right);

    seen[l < r ? ends_in(right, '2') ? RIGHT_2 : RIGHT_3 : l == r ? EQUAL : ends_in(left, '2') ? LEFT_2 : LEFT_3]++;
}

/* The codes of an entry that stands in the tree without them; whether they keep within 127 digits. */
static int give_codes(struct entry *x)
{
    int k = 0;

    survey();
    while (tour[k] != x->start)
        k++;
    const char *left = tour[k - 1], *right = tour[k + 2];
    note_between(left, right);
    if (!make_between(x->start, left, right))
        return 0;
    note_between(x->start, right);
    if (!make_between(x->end, x->start, right)) {
        seen[END_TOO_LONG]++;
        return 0;
    }
    if (strcmp(left, x->start) >= 0 || strcmp(x->start, x->end) >= 0 || strcmp(x->end, right) >= 0)
        fail_test("a new code is not between its neighbours");
    return 1;
}

/* The refusal number, or 0 and the entry's place. */
static int model_insert(int *place)
{
    struct entry *target = find(edit.target), *parent, *x;

    if (!target)
        return 6;
    parent = edit.call == FIRST || edit.call == LAST ? target : target->parent;
    if (!parent)
        return 7;
    if (edit.identity == 0 || find(edit.identity))
        return 3;
    if (depth_of(parent) == DEEPEST)
        return 10;
    if (count == ROWS || len < HEADER + ENTRY * (size_t)(count + 1))
        return 4;
    seen[OVER_CHILDREN] += edit.call == AFTER && target->child;
    x = put_in(gap(edit.call, target), parent, edit.identity, edit.tag);
    if (!give_codes(x)) {
        take_out(x);
        if (most < LONGEST)
            fail_test("no. 8 too early");
        return 8;
    }
    if (most < LONGEST)
        most++;
    if ((int)strlen(x->start) > most || (int)strlen(x->end) > most)
        fail_test("a code is too long for the number of insertions");
    *place = x->place;
    return 0;
}

static int model_delete(int *place)
{
    struct entry *target = find(edit.target);

    if (!target || target == root)
        return target ? 7 : 6;
    if (target->child)
        return 9;
    *place = target->place;
    take_out(target);
    return 0;
}

/* ---- one case ---- */

static uint32_t deleted; /* the identity last taken out */

static int32_t call_library(void)
{
    switch (edit.call) {
    case FIRST:
        return plant_insert_first(output, len, edit.target, edit.identity, edit.tag);
    case LAST:
        return plant_insert_last(output, len, edit.target, edit.identity, edit.tag);
    case BEFORE:
        return plant_insert_before(output, len, edit.target, edit.identity, edit.tag);
    case AFTER:
        return plant_insert_after(output, len, edit.target, edit.identity, edit.tag);
    default:
        return plant_delete(output, len, edit.target);
    }
}

static void expect(const char *what, int32_t got, int32_t want)
{
    if (got != want)
        fail(what, got, want);
}

static int is_above(const struct entry *x, const struct entry *y)
{
    while (y->parent && y->parent != x)
        y = y->parent;
    return y->parent != NULL;
}

static void ask(const struct entry *x, const struct entry *y)
{
    const uint8_t *u = output + HEADER + ENTRY * x->place + 8, *v = output + HEADER + ENTRY * y->place + 8;
    int order = (x->place > y->place) - (x->place < y->place), above = is_above(x, y), parent = y->parent == x;
    int sibling = x != y && x->parent && x->parent == y->parent;

    expect("plant_place", plant_place(output, len, x->identity), x->place);
    expect("plant_depth", plant_depth(output, len, x->identity), depth_of(x));
    expect("plant_distance", plant_distance(output, len, x->identity, y->identity), y->place - x->place);
    expect("plant_order", plant_order(u, LABEL, v, LABEL), order);
    expect("plant_above", plant_above(u, LABEL, v, LABEL), above);
    expect("plant_parent", plant_parent(u, LABEL, v, LABEL), parent);
    expect("plant_sibling", plant_sibling(u, LABEL, v, LABEL), sibling);
    seen[SAME + order]++;
    seen[IS_ABOVE] += (unsigned long)above;
    seen[IS_PARENT] += (unsigned long)parent;
    seen[IS_SIBLING] += (unsigned long)sibling;
}

/* The new entry with another, an entry with its parent, and any two; what was taken out is not there. */
static void ask_pairs(int place)
{
    struct entry *x = in_order[pick(count)];

    if (edit.call == DELETE)
        expect("plant_place of what was taken out", plant_place(output, len, edit.target), -100006);
    else
        ask(in_order[place], in_order[pick(count)]);
    ask(x->parent ? x->parent : x, x);
    ask(in_order[pick(count)], in_order[pick(count)]);
}

/* The sound register, read along its codes, is the tree. */
static void check_tree(void)
{
    if (count != (int)get_32(reg))
        fail_test("the register has another count than the tree");
    for (int i = 0; i < count; i++) {
        const struct entry *x = in_order[i];
        if (parents[i] != (x->parent ? x->parent->place : -1) || x->identity != get_32(entry_at(i)))
            fail_test("the register holds another tree");
    }
}

/* Makes the edit under way; its refusal number, or 0. */
static int try_edit(void)
{
    static uint8_t after[sizeof reg];
    int place = 0, number = model_verdict() == SOUND ? 0 : 5;

    case_number++;
    memcpy(after, reg, len);
    if (number == 0) {
        check_tree();
        number = edit.call == DELETE ? model_delete(&place) : model_insert(&place);
    }
    if (number == 0) {
        write_tree(after);
        if (edit.call == DELETE)
            memset(after + HEADER + ENTRY * count, 0, ENTRY);
    }
    for (side = 0; side < 2; side++) {
        lend_output(len);
        memcpy(output, reg, len);
        memcpy(output_wanted, after, len);
        expect(call_names[edit.call], call_library(), number > 0 ? -(100000 + number) : place);
        check_output();
        if (number == 0 && side == (int)(case_number % 2))
            ask_pairs(place);
    }
    tally[edit.call][number]++;
    if (number > 0)
        return number;
    memcpy(reg, after, len);
    rows = count;
    seen[IDENTITY_AGAIN] += edit.call != DELETE && edit.identity == deleted;
    deleted = edit.call == DELETE ? edit.target : deleted;
    return 0;
}

/* Lends room for some bytes more or less than the counted entries. */
static void lend(int more)
{
    len = HEADER + ENTRY * (size_t)count;
    if (more < 0)
        len -= (size_t)-more;
    else
        len += (size_t)more;
    if (len > sizeof reg)
        len = sizeof reg;
}

static int try(enum call call, uint32_t target, uint32_t identity)
{
    edit.call = call, edit.target = target, edit.identity = identity, edit.tag = chance(4) ? 0 : (uint32_t)draw();
    return try_edit();
}

/* With room for one entry more */
static int try_with_room(enum call call, uint32_t target, uint32_t identity)
{
    lend(ENTRY);
    return try(call, target, identity);
}

static void must_be(int got, int want)
{
    if (got != want)
        fail_test("another refusal number than this case is made for");
}

/* ---- making registers ---- */

/* Bytes past the entries, up to a place */
static void fill_behind(size_t to)
{
    for (size_t i = len; i < to && i < sizeof reg; i++)
        reg[i] = (uint8_t)draw();
}

/* The least m for which 3 to the m passes 2n */
static int first_digits(int n)
{
    int m = 0;

    for (int power = 1; power <= 2 * n; power *= 3)
        m++;
    return m;
}

/* The register that was made is the one under way. */
static void start_run(void)
{
    fill_behind(len + 3 * ENTRY);
    if (model_verdict() != SOUND)
        fail_test("a register was made that is not sound");
    take_over();
}

/* First codes, identities from 1 on */
static void start_first(size_t n, enum shape shape)
{
    make_table(n, shape, 1);
    build_first();
    start_run();
    most = first_digits(count);
}

static void start_random(size_t n)
{
    int drawn = chance(2);

    make_register(n, (enum shape)pick(SHAPES), drawn);
    start_run();
    if (!drawn)
        most = first_digits(count);
}

static uint8_t kept[sizeof reg];

static size_t kept_size(const uint8_t *from)
{
    size_t size = HEADER + ENTRY * (size_t)(get_32(from) + 1);

    return size < sizeof reg ? size : sizeof reg;
}

static void keep(void)
{
    memcpy(kept, reg, kept_size(reg));
}

/* The register that was kept, and its tree once more */
static void restore(void)
{
    memcpy(reg, kept, kept_size(kept));
    len = HEADER + ENTRY * (size_t)get_32(reg);
    if (model_verdict() != SOUND)
        fail_test("the register that was kept is not sound");
    take_over();
}

/* After damage: if the register is still sound, its tree is the one under way. */
static void look_again(void)
{
    if (model_verdict() != SOUND)
        return;
    take_over();
    seen[DAMAGED_SOUND]++;
}

/* ---- fixed cases ---- */

static void expect_label(uint32_t identity, const char *text)
{
    const struct entry *x = find(identity);
    char label[3 * (LONGEST + 1)];

    snprintf(label, sizeof label, "%s %s %s", x->start, x->end, x->parent->start);
    if (strcmp(label, text) != 0)
        fail_test(text);
}

/* 01's P8, P9 and P10 */
static void worked_examples(void)
{
    group = "the worked examples";
    build_worked();
    start_run();
    keep();
    must_be(try_with_room(FIRST, 12, 14), 0);
    expect_label(14, "222 223 22");
    restore();
    must_be(try_with_room(AFTER, 11, 14), 0);
    expect_label(14, "212 213 12");
    restore();
    must_be(try_with_room(LAST, 11, 14), 0);
    expect_label(14, "132 133 13");
    restore();
    must_be(try_with_room(AFTER, 12, 14), 0); /* not between 32 and its child's 23 */
    expect_label(14, "322 323 12");
}

enum { NEW = 1000000 }; /* identities that no table here has begin with it */

/* Insertions at one place until no code is left, the last of them taken out and put in again; how many were accepted. */
static int exhaust(enum call call, uint32_t target)
{
    uint32_t next = NEW;
    int number;

    while ((number = try_with_room(call, target, next)) == 0)
        next++;
    must_be(number, 8);
    lend(ENTRY - 1);
    must_be(try(call, target, next), 4);
    must_be(try_with_room(DELETE, next - 1, 0), 0);
    must_be(try_with_room(call, target, next), 0);
    must_be(try_with_room(call, target, next - 1), 8);
    return (int)(next - NEW);
}

static void worst_places(void)
{
    static const size_t sizes[] = {1, 13};

    group = "one place until no code is left";
    for (int call = FIRST; call <= AFTER; call++)
        for (int i = 0; i < 2; i++) {
            int inner = call == FIRST || call == LAST, before = 0;
            start_first(sizes[i], FLAT);
            if (sizes[i] == 1 && !inner) {
                must_be(try_with_room(FIRST, 1, 2), 0);
                before = 1;
            }
            int accepted = before + exhaust((enum call)call, inner ? 1 : 2);
            printf("%s, always the same place, from %zu: %d accepted, then no. 8\n", call_names[call], sizes[i], accepted);
            if (sizes[i] == 1 && accepted != 126)
                fail_test("from one entry 126 insertions are accepted at a worst place");
        }
}

/* Each new entry beside the last one, on either side in turn. */
static void zigzag(void)
{
    uint32_t next = NEW;
    int number;

    group = "before and after the newest in turn";
    start_first(2, FLAT);
    for (uint32_t target = 2; (number = try_with_room(next % 2 ? BEFORE : AFTER, target, next)) == 0; next++)
        target = next;
    must_be(number, 8);
    printf("before and after the newest in turn, from 2: %d accepted\n", (int)(next - NEW));
}

static void deep_chain(void)
{
    group = "a chain down to depth 63";
    start_first(1, FLAT);
    for (uint32_t i = 1; i <= DEEPEST; i++)
        must_be(try_with_room(i % 2 ? FIRST : LAST, i, i + 1), 0);
    must_be(try_with_room(FIRST, DEEPEST + 1, NEW), 10);
    must_be(try_with_room(LAST, DEEPEST + 1, NEW), 10);
    must_be(try_with_room(LAST, DEEPEST + 1, 1), 3);
    lend(0);
    must_be(try(FIRST, DEEPEST + 1, NEW), 10);
    must_be(try_with_room(BEFORE, DEEPEST + 1, NEW), 0);
    must_be(try_with_room(AFTER, DEEPEST + 1, NEW + 1), 0);
    must_be(try_with_room(AFTER, DEEPEST, NEW + 2), 0);
    must_be(try_with_room(DELETE, DEEPEST, 0), 9);
    for (uint32_t i = 0; i < 2; i++)
        must_be(try_with_room(DELETE, NEW + i, 0), 0);
    for (uint32_t i = DEEPEST + 1; i > DEEPEST - 1; i--)
        must_be(try_with_room(DELETE, i, 0), 0);
    must_be(try_with_room(DELETE, DEEPEST - 1, 0), 9); /* the entry put in behind its child */
}

/* The largest registers: filled, refused, emptied by one and filled again. */
static void full(enum shape shape)
{
    group = "4096 entries";
    start_first(ROWS - 1, shape);
    must_be(try_with_room(FIRST, 1, NEW), 0);
    for (int call = FIRST; call <= AFTER; call++) {
        lend(ENTRY + call);
        must_be(try((enum call)call, NEW, NEW + 1), 4);
    }
    must_be(try_with_room(FIRST, NEW, 1), 3);
    must_be(try_with_room(LAST, DEEPEST + 1, NEW + 1), shape == CHAINS ? 10 : 4);
    must_be(try_with_room(DELETE, in_order[ROWS - 1]->identity, 0), 0);
    must_be(try_with_room(AFTER, NEW, NEW + 1), 0);
    must_be(try_with_room(LAST, 1, NEW + 2), 4);
    lend(0);
    must_be(try(DELETE, NEW, 0), 0);
    must_be(try_with_room(LAST, 1, NEW + 2), 0);
}

/* Every target with every identity and every room, so that refusals meet: one place has no code left, one no depth. */
static void faults_meet(void)
{
    static const int rooms[] = {-1, 0, ENTRY - 1, ENTRY, ENTRY + 1};
    static const uint32_t identities[] = {0, 1, NEW, 7};
    uint32_t targets[] = {1, 7, NEW, 100 + DEEPEST, 0}, *longest = &targets[4];

    group = "several refusals at once";
    start_first(1, FLAT);
    exhaust(FIRST, 1);
    *longest = in_order[1]->identity;
    while (count > 3)
        must_be(try_with_room(DELETE, in_order[2]->identity, 0), 0);
    for (uint32_t i = 2; i <= DEEPEST; i++)
        must_be(try_with_room(LAST, i == 2 ? NEW : 99 + i, 100 + i), 0);
    keep();
    for (int k = 0; k < CALLS * 5 * 4 * 5; k++) {
        lend(rooms[k / (CALLS * 5 * 4)]);
        if (try((enum call)(k % CALLS), targets[k / CALLS % 5], identities[k / (CALLS * 5) % 4]) == 0)
            restore();
    }
}

/* ---- random cases ---- */

static uint32_t newest;  /* the identity last drawn for an insertion */
static int beside_newest; /* most edits of a run are aimed there */

static void draw_edit(void)
{
    edit.target = beside_newest && !chance(4) ? newest : chance(3) ? random_identity() : in_order[pick(count)]->identity;
    edit.call = (enum call)(chance(4) ? DELETE : pick(DELETE));
    edit.identity = chance(12) ? random_identity() : chance(4) ? deleted : (uint32_t)draw();
    edit.tag = chance(4) ? 0 : (uint32_t)draw();
    if (edit.call != DELETE && edit.identity != 0)
        newest = edit.identity;
}

static void draw_room(void)
{
    switch (pick(12)) {
    case 0:
        lend(ENTRY - 1);
        break;
    case 1:
        lend(pick(ENTRY));
        break;
    case 2:
        lend(ENTRY + 1 + pick(ENTRY));
        break;
    case 3:
        lend(-1 - pick(chance(2) ? 4 : HEADER + ENTRY));
        break;
    default:
        lend(ENTRY);
    }
}

static void every_length(void)
{
    group = "every length of buffer";
    for (size_t n = 1; n <= 3; n++)
        for (size_t bytes = 0; bytes <= HEADER + ENTRY * (n + 1) + 3; bytes++) {
            start_random(n);
            draw_edit();
            len = bytes;
            try_edit();
        }
}

static void every_bit(void)
{
    group = "every bit";
    start_random(4);
    keep();
    for (size_t bit = 0; bit < 8 * (HEADER + ENTRY * 4); bit++) {
        restore();
        reg[bit / 8] ^= (uint8_t)(1 << bit % 8);
        look_again();
        draw_edit();
        lend(ENTRY);
        try_edit();
    }
}

/* One thing made wrong in a register, then an edit of it */
static void damaged_register(enum damage damage, size_t n)
{
    make_register(n, (enum shape)pick(SHAPES), !chance(3));
    start_run();
    spoil(damage);
    if (chance(2))
        len += ENTRY;
    look_again();
    draw_edit();
    try_edit();
}

static void every_damage(void)
{
    group = "every damage";
    for (int damage = 0; damage < DAMAGES; damage++)
        for (size_t i = 0; i < 24; i++)
            damaged_register((enum damage)damage, 2 + i % 12);
}

static void random_run(void)
{
    int edits = chance(16) ? 250 : 10 + pick(40);

    group = "random run";
    start_random((size_t)(1 + pick(chance(8) ? 200 : 24)));
    beside_newest = chance(3);
    for (int i = 0; i < edits; i++) {
        draw_edit();
        draw_room();
        try_edit();
    }
    group = "random run, then one bit turned";
    keep();
    for (int i = 0; i < 4; i++) {
        lend(ENTRY);
        reg[pick(HEADER + ENTRY * count)] ^= (uint8_t)(1 << pick(8));
        look_again();
        draw_edit();
        try_edit();
        restore();
    }
    group = "random register, damaged";
    damaged_register((enum damage)pick(DAMAGES), (size_t)(1 + pick(24)));
}

/* How many answers were never seen, or seen though the call cannot give them. */
static int missing(void)
{
    int bad = 0;

    for (int call = 0; call < CALLS; call++) {
        printf("%s: accepted %lu", call_names[call], tally[call][0]);
        for (int n = 0; n < NUMBERS; n++) {
            if (n > 0 && possible[call][n])
                printf(", no. %d %lu", n, tally[call][n]);
            bad += possible[call][n] != (tally[call][n] > 0);
        }
        printf("\n");
    }
    for (int i = 0; i < SEEN; i++) {
        printf("%s%s %lu", i == 0 ? "" : i == EARLIER ? "\n" : ", ", seen_names[i], seen[i]);
        bad += seen[i] == 0;
    }
    printf("\n");
    return bad;
}

int main(int argc, char **argv)
{
    start_test(argc, argv, 300, on_fault);
    make_output_pages();
    fill_behind(sizeof reg);

    worked_examples();
    worst_places();
    zigzag();
    deep_chain();
    full(FLAT), full(CHAINS);
    faults_meet();
    every_length();
    every_bit();
    every_damage();
    for (unsigned long long i = 0; i < rounds; i++)
        random_run();

    int bad = missing();
    if (bad > 0) {
        printf("NEVER SEEN, or not possible: %d of these\n", bad);
        return 1;
    }
    printf("%lu cases, each before and behind a guard page: no mismatch\n", case_number);
    return 0;
}
