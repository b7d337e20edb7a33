/* What the tests of tables and of edits share: codes as text, for which strcmp has 01's order, and the one code between two.
 * Needs tables.h. */

/* Makes a code of another, its last digits cut off, and a tail; whether it keeps within 127 digits. */
static int make(char *code, const char *from, int cut, const char *tail)
{
    return snprintf(code, LONGEST + 1, "%.*s%s", (int)strlen(from) - cut, from, tail) <= LONGEST;
}

static int ends_in(const char *code, char digit)
{
    return code[strlen(code) - 1] == digit;
}

/* The one code between; either side may be empty, which is open. Whether it keeps within 127 digits. */
static int make_between(char *code, const char *left, const char *right)
{
    if (strlen(left) < strlen(right))
        return make(code, right, 1, ends_in(right, '2') ? "12" : "2");
    if (strlen(left) == strlen(right))
        return make(code, left, 0, "2");
    return make(code, left, ends_in(left, '2'), ends_in(left, '2') ? "3" : "2");
}
