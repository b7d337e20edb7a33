/* What the tests of registers and of edits share: one thing in a register made wrong, or another and still right. Needs
 * registers.h. */

enum damage {
    COUNT_IS_0, COUNT_IS_MORE, COUNT_IS_LESS, COUNT_IS_ANY, BYTES_ARE_LESS, SECOND_NUMBER, ANOTHER_TAG, NO_IDENTITY,
    SAME_IDENTITY, ONE_BIT, ONE_DIGIT, START_END_SWAPPED, OTHER_PARENT, PARENT_CUT, PARENT_LONGER, PARENT_EMPTY, ROOT_PARENT,
    END_BELOW_CHILD, END_AT_CHILD, FIELD_COPIED, FIELDS_SWAPPED, ENTRIES_SWAPPED, LABELS_SWAPPED, ENTRY_TAKEN_OUT, SECOND_ROOT,
    DEEPER, LEVEL_LEFT_OUT, FULL_FIELD, FIELD_WITH_HOLE, ONE_AT_THE_END, DIGIT_BEHIND, NEW_LEAF_CODE, BIT_BEHIND, DAMAGES
};

static void swap(uint8_t *x, uint8_t *y, size_t n)
{
    for (size_t i = 0; i < n; i++) {
        uint8_t held = x[i];
        x[i] = y[i];
        y[i] = held;
    }
}

static void put_digit(uint8_t *field, int k, int digit)
{
    int shift = 6 - 2 * (k % 4);

    field[k / 4] = (uint8_t)((field[k / 4] & ~(3 << shift)) | digit << shift);
}

static int digits_in(const uint8_t *field)
{
    int n = 0;

    while (n <= LONGEST && digit_at(field, n) != 0)
        n++;
    return n;
}

/* The last child of an entry of a sound register by its start, or the entry itself if it has none. */
static int last_child(int i)
{
    int child = rows - 1;

    while (child > i && memcmp(field_at(child, 2), field_at(i, 0), FIELD) != 0)
        child--;
    return child;
}

/* An entry with children, if any has. */
static int random_parent(void)
{
    int i = pick(rows);

    while (i > 0 && last_child(i) == i)
        i--;
    return i;
}

static void spoil(enum damage damage)
{
    int i = pick(rows), j = pick(rows), k = pick(3), p = random_parent(), c = last_child(p), n = digits_in(field_at(i, k));
    int depth = DEEPEST + pick(2);
    size_t less;

    switch (damage) {
    case COUNT_IS_0:
        put_32(reg, 0);
        break;
    case COUNT_IS_MORE:
        put_32(reg, (uint32_t)(rows + 1));
        break;
    case COUNT_IS_LESS: /* sound if one at least is left */
        put_32(reg, (uint32_t)i);
        break;
    case COUNT_IS_ANY:
        reg[pick(4)] ^= (uint8_t)(1 << pick(8));
        break;
    case BYTES_ARE_LESS:
        less = (size_t)(1 + pick(chance(2) ? 4 : (int)len + 1));
        len -= less < len ? less : len;
        break;
    case SECOND_NUMBER:
        reg[4 + pick(4)] ^= (uint8_t)(1 << pick(8));
        break;
    case ANOTHER_TAG:
        put_32(entry_at(i) + 4, (uint32_t)draw());
        break;
    case NO_IDENTITY:
        put_32(entry_at(i), 0);
        break;
    case SAME_IDENTITY:
        memcpy(entry_at(i), entry_at(j), 4);
        break;
    case ONE_BIT:
        entry_at(i)[pick(ENTRY)] ^= (uint8_t)(1 << pick(8));
        break;
    case ONE_DIGIT: /* within the code, the last one more often */
        if (n > 0)
            put_digit(field_at(i, k), chance(2) ? n - 1 : pick(n), pick(4));
        break;
    case START_END_SWAPPED:
        swap(field_at(i, 0), field_at(i, 1), FIELD);
        break;
    case OTHER_PARENT:
        memcpy(field_at(i, 2), field_at(j, 0), FIELD);
        break;
    case PARENT_CUT:
        if ((n = digits_in(field_at(i, 2))) > 0)
            put_digit(field_at(i, 2), n - 1, 0);
        break;
    case PARENT_LONGER:
        put_digit(field_at(i, 2), digits_in(field_at(i, 2)), 1 + pick(3));
        break;
    case PARENT_EMPTY:
        memset(field_at(i, 2), 0, FIELD);
        break;
    case ROOT_PARENT: /* 1s and a 2 are mostly below the root's start */
        memset(field_at(0, 2), 0, FIELD);
        n = 1 + pick(LONGEST);
        for (int d = 0; d < n; d++)
            put_digit(field_at(0, 2), d, d < n - 1 ? 1 : 2);
        if (chance(4))
            memcpy(field_at(0, 2), field_at(j, pick(2)), FIELD);
        break;
    case END_BELOW_CHILD:
        swap(field_at(p, 1), field_at(c, 1), FIELD);
        break;
    case END_AT_CHILD:
        memcpy(field_at(p, 1), field_at(c, pick(2)), FIELD);
        break;
    case FIELD_COPIED:
        memcpy(field_at(i, k), field_at(j, pick(3)), FIELD);
        break;
    case FIELDS_SWAPPED:
        swap(field_at(i, k), field_at(j, pick(3)), FIELD);
        break;
    case ENTRIES_SWAPPED:
        swap(entry_at(i), entry_at(j), ENTRY);
        break;
    case LABELS_SWAPPED:
        swap(field_at(i, 0), field_at(j, 0), 3 * FIELD);
        break;
    case ENTRY_TAKEN_OUT: /* sound if it was a leaf, and not the root */
        memmove(entry_at(i), entry_at(i) + ENTRY, (size_t)(ENTRY * (rows - 1 - i)));
        put_32(reg, (uint32_t)(rows - 1));
        break;
    case SECOND_ROOT: /* without a parent start, or with that of the first root */
        table[ROW * i + 2] = 0;
        for (int d = i + 1; d < rows && table[ROW * d + 2] > table[ROW * (d - 1) + 2] + 1; d++)
            table[ROW * d + 2] = table[ROW * (d - 1) + 2] + 1;
        build_drawn();
        if (chance(2) && i > 0)
            memcpy(field_at(i, 2), field_at(0, 0), FIELD);
        break;
    case DEEPER: /* a chain down to depth 63, which is sound, or 64, and all others there */
        for (int d = 0; d < rows; d++)
            table[ROW * d + 2] = (uint32_t)(d < depth ? d : depth);
        build_drawn();
        break;
    case LEVEL_LEFT_OUT: /* the parent's parent for a parent */
        memcpy(field_at(c, 2), field_at(p, 2), FIELD);
        break;
    case FULL_FIELD:
        for (int d = n; d <= LONGEST; d++)
            put_digit(field_at(i, k), d, d < LONGEST ? 1 : 2);
        break;
    case FIELD_WITH_HOLE:
        if (n > 1)
            put_digit(field_at(i, k), pick(n - 1), 0);
        break;
    case ONE_AT_THE_END:
        if (n > 0)
            put_digit(field_at(i, k), n - 1, 1);
        break;
    case DIGIT_BEHIND: /* one zero or more between */
        if (n < LONGEST)
            put_digit(field_at(i, k), n + 1 + pick(LONGEST - n), 1 + pick(3));
        break;
    case NEW_LEAF_CODE: /* often still sound: a digit more at a leaf's start or any end */
        k = last_child(i) == i ? pick(2) : 1;
        if ((n = digits_in(field_at(i, k))) < LONGEST)
            put_digit(field_at(i, k), n, 2 + pick(2));
        break;
    default: /* sound as before */
        lend_more((size_t)(1 + pick(2 * ENTRY)));
        break;
    }
}
