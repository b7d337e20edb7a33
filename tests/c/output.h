/* What the tests of tables and of edits share: a register lent to be written, and every byte that is to stand there after the
 * call. Needs tables.h. */

static size_t output_pages; /* bytes of all pages */
static uint8_t *pages_lent, *pages_wanted;
static size_t output_from, output_size; /* the pages that a call's register stands on */
static uint8_t *output, *output_wanted; /* the register */

static void fail(const char *what, long long got, long long want)
{
    printf("MISMATCH: %s: %lld, expected %lld\n", what, got, want);
    print_case();
    exit(1);
}

static void make_output_pages(void)
{
    output_pages = whole_pages(HEADER + ENTRY * (size_t)MOST);
    pages_lent = make_output(output_pages);
    pages_wanted = must_have(output_pages);
}

/* The register stands at the end of its pages, before a guard, or at the beginning, behind one. */
static void lend_output(size_t room)
{
    size_t at = side ? 0 : output_pages - room;

    output_size = whole_pages(room);
    output_from = side ? 0 : output_pages - output_size;
    for (size_t i = output_from; i < output_from + output_size; i++)
        pages_lent[i] = pages_wanted[i] = (uint8_t)(0x35 + 29 * i + case_number);
    output = pages_lent + at;
    output_wanted = pages_wanted + at;
}

/* Every byte of those pages is as wanted. */
static void check_output(void)
{
    size_t i = output_from;

    if (memcmp(pages_lent + i, pages_wanted + i, output_size) == 0)
        return;
    while (pages_lent[i] == pages_wanted[i])
        i++;
    long k = pages_lent + i - output;
    printf("Byte %ld of the lent register is wrong after the call.\n", k);
    if (k >= HEADER)
        printf("It is byte %ld of entry %ld.\n", (k - HEADER) % ENTRY, (k - HEADER) / ENTRY);
    fail("register byte", pages_lent[i], pages_wanted[i]);
}
