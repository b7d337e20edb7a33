/* Four entries of a plant register, their labels, and what the labels say of each pair.
 *
 *     10
 *    /  \
 *  11    12
 *         |
 *        13
 *
 * cc -std=c11 -Wall -Wextra -Iinclude examples/labels.c target/staticlib/libhost.a -o labels
 */
#include <stdio.h>
#include <stdlib.h>
#include <string.h>

#include "plant.h"

struct entry {
    int identity;
    const char *start, *end, *parent_start; /* digits as text; "" for the root's empty parent start */
    uint8_t label[PLANT_LABEL];
};

static struct entry entries[] = {
    {10, "12", "33", "", {0}},
    {11, "13", "2", "12", {0}},
    {12, "22", "32", "12", {0}},
    {13, "23", "3", "22", {0}},
};

enum { ENTRIES = sizeof entries / sizeof entries[0] };

/* Packs a code given as text. The empty text leaves the field as it is: all zero, the empty field. */
static void pack(const char *text, uint8_t *field)
{
    uint8_t digits[PLANT_LONGEST];
    size_t n = strlen(text);

    if (n == 0)
        return;
    if (n > sizeof digits)
        exit(EXIT_FAILURE);
    for (size_t i = 0; i < n; i++)
        digits[i] = (uint8_t)(text[i] - '0');
    if (plant_pack(digits, n, field, PLANT_FIELD) != (int32_t)n) {
        fprintf(stderr, "%s is no code\n", text);
        exit(EXIT_FAILURE);
    }
}

/* What an answer to a yes-or-no question says. A refusal is never taken for a no. */
static const char *said(int32_t answer)
{
    switch (answer) {
    case 1:
        return "yes";
    case 0:
        return "no";
    case PLANT_NO_LABEL:
        return "refused, no sound label";
    default:
        return "refused";
    }
}

static void print_pair(const struct entry *u, const struct entry *v)
{
    printf("%d  %d  %5d  %5s  %6s  %7s\n", u->identity, v->identity,
           (int)plant_order(u->label, PLANT_LABEL, v->label, PLANT_LABEL),
           said(plant_above(u->label, PLANT_LABEL, v->label, PLANT_LABEL)),
           said(plant_parent(u->label, PLANT_LABEL, v->label, PLANT_LABEL)),
           said(plant_sibling(u->label, PLANT_LABEL, v->label, PLANT_LABEL)));
}

int main(void)
{
    for (int i = 0; i < ENTRIES; i++) {
        pack(entries[i].start, entries[i].label);
        pack(entries[i].end, entries[i].label + PLANT_FIELD);
        pack(entries[i].parent_start, entries[i].label + 2 * PLANT_FIELD);
    }

    printf(" u   v  order  above  parent  sibling\n");
    for (int i = 0; i < ENTRIES; i++)
        for (int j = 0; j < ENTRIES; j++)
            print_pair(&entries[i], &entries[j]);

    /* The incident. Without its zero fill a code of n digits takes n / 4 + 1 bytes. A host program that cuts one code there
     * and leaves the other filled has two lengths for one code: compared, they never match, and nobody is told. */
    const uint8_t *outage = entries[2].label, *unit = entries[3].label;
    const uint8_t *parent_start = unit + 2 * PLANT_FIELD;
    size_t cut = strlen(entries[3].parent_start) / 4 + 1;
    size_t label_cut = 2 * PLANT_FIELD + cut;
    int match = cut == PLANT_FIELD && memcmp(outage, parent_start, cut) == 0;

    printf("\n13's parent start cut to %zu of %d bytes, against 12's start: %s\n", cut, PLANT_FIELD, match ? "match" : "no match");
    printf("13's label cut with it to %zu of %d bytes, is 12 its parent: %s\n", label_cut, PLANT_LABEL,
           said(plant_parent(outage, PLANT_LABEL, unit, label_cut)));
    printf("13's whole label, is 12 its parent: %s\n", said(plant_parent(outage, PLANT_LABEL, unit, PLANT_LABEL)));
    return 0;
}
