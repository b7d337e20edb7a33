/* The incident from start to end: turbines go out, their codes grow until they all but fill their field, and the reserve is
 * summed up over the turbines that are not under an outage; beside it the sum that one wrong comparison would have declared.
 *
 * cc -std=c11 -Wall -Wextra -Iinclude examples/incident.c target/staticlib/libhost.a -o incident
 */
#include <stdio.h>
#include <stdlib.h>
#include <string.h>

#include "plant.h"

enum { STATION = 1, OUTAGE = 2, INNER = 3, FIRST = 101, TURBINES = 130, LAST = FIRST + TURBINES - 1 };
enum { UNIT_TAG = 1, OUTAGE_TAG = 2 };

static uint32_t table[PLANT_ROW * (1 + TURBINES)];
static uint8_t reg[PLANT_HEADER + PLANT_ENTRY * (1 + TURBINES + 2)];
static int rating[LAST + 1]; /* MW, by identity */

/* An answer that is no refusal. */
static int32_t must(int32_t answer)
{
    if (answer <= PLANT_REFUSED(0)) {
        fprintf(stderr, "refused: no. %d\n", (int)(PLANT_REFUSED(0) - answer));
        exit(EXIT_FAILURE);
    }
    return answer;
}

static const uint8_t *label(uint32_t identity)
{
    return reg + PLANT_HEADER + PLANT_ENTRY * must(plant_place(reg, sizeof reg, identity)) + 8;
}

static int digits_in(const uint8_t *field)
{
    uint8_t digits[PLANT_LONGEST];

    return must(plant_unpack(field, PLANT_FIELD, digits, sizeof digits));
}

static int start_digits(uint32_t identity)
{
    return digits_in(label(identity));
}

static int above(uint32_t upper, uint32_t lower)
{
    return must(plant_above(label(upper), PLANT_LABEL, label(lower), PLANT_LABEL));
}

static int parent(uint32_t upper, uint32_t lower)
{
    return must(plant_parent(label(upper), PLANT_LABEL, label(lower), PLANT_LABEL));
}

/* The error of the incident: one code is cut before its filling, the other is a whole field, and the two are matched. */
static int mistaken_match(uint32_t outage, uint32_t unit)
{
    const uint8_t *start = label(outage), *parent_start = label(unit) + 2 * PLANT_FIELD;
    int cut = digits_in(parent_start) / 4 + 1;

    return cut == PLANT_FIELD && memcmp(start, parent_start, (size_t)cut) == 0;
}

/* Takes a turbine out of the station's row and puts it in as an outage's first child. */
static int32_t goes_out(uint32_t unit, uint32_t outage)
{
    must(plant_delete(reg, sizeof reg, unit));
    return plant_insert_first(reg, sizeof reg, outage, unit, UNIT_TAG);
}

static void open_station(void)
{
    int sum = 0;

    for (uint32_t i = 0; i <= TURBINES; i++) {
        uint32_t row[PLANT_ROW] = {i == 0 ? STATION : FIRST + i - 1, UNIT_TAG, i > 0};
        memcpy(table + PLANT_ROW * i, row, sizeof row);
    }
    for (int unit = FIRST; unit <= LAST; unit++)
        sum += rating[unit] = 2 + unit % 5;
    if (plant_label(table, PLANT_ROW * (1 + TURBINES), reg, sizeof reg) < 0)
        exit(EXIT_FAILURE);
    printf("A station has %d turbines, %d to %d, of 2 to 6 MW, together %d MW.\n", TURBINES, FIRST, LAST, sum);
}

/* Each turbine goes to the front of the outage, the worst place for the length of codes; the first one still running. */
static uint32_t turbines_go_out(void)
{
    uint32_t unit = FIRST;

    must(plant_insert_last(reg, sizeof reg, STATION, OUTAGE, OUTAGE_TAG));
    printf("An outage is opened; its start has %d digits. Turbines go out, each to its front:\n", start_digits(OUTAGE));
    do {
        must(goes_out(unit, OUTAGE));
        if ((unit - FIRST) % 29 == 0 || start_digits(unit) == 123)
            printf("  turbine %u, start of %3d digits\n", unit, start_digits(unit));
    } while (start_digits(unit++) < 123);
    must(plant_insert_first(reg, sizeof reg, OUTAGE, INNER, OUTAGE_TAG));
    printf("A second outage is opened at the front of the first; its start has %d digits. Turbines go there:\n",
           start_digits(INNER));
    for (int32_t answer; (answer = goes_out(unit, INNER)) != PLANT_CODE_LENGTH; unit++) {
        must(answer);
        printf("  turbine %u, start of %3d digits\n", unit, start_digits(unit));
    }
    must(plant_insert_last(reg, sizeof reg, OUTAGE, unit, UNIT_TAG));
    printf("  turbine %u is refused there, for a code would pass %d digits; it goes to the end of the first,\n", unit,
           PLANT_LONGEST);
    printf("  start of %d digits\n", start_digits(unit));
    return unit + 1;
}

int main(void)
{
    int under = 0, directly = 0, reserve = 0, declared = 0;

    open_station();
    uint32_t running = turbines_go_out();

    printf("\nIs it under the first outage? Is that its parent, or is the second one?\n");
    for (uint32_t unit = FIRST; unit <= LAST; unit++) {
        int out = above(OUTAGE, unit), by_mistake = mistaken_match(OUTAGE, unit) || mistaken_match(INNER, unit);
        under += out;
        directly += parent(OUTAGE, unit);
        reserve += out ? 0 : rating[unit];
        declared += by_mistake ? 0 : rating[unit];
        if (unit == FIRST || (unit + 6 >= running && unit <= running))
            printf("  turbine %u, start of %3d digits: %s; %s, %s\n", unit, start_digits(unit), out ? "yes" : "no",
                   parent(OUTAGE, unit) ? "yes" : "no", parent(INNER, unit) ? "yes" : "no");
    }
    printf("Of all %d turbines %d are under the first outage, %d of them directly; %d are not.\n", TURBINES, under, directly,
           TURBINES - under);

    printf("\nReserve, the turbines that are not under an outage: %d MW\n", reserve);
    printf("Declared by matching a cut code with a filled field: %d MW, of which %d MW are not there\n", declared,
           declared - reserve);
    printf("The wrong match finds only the turbines right under the second outage: its start of %d digits takes all\n"
           "%d bytes, so that nothing is cut. The first one's has %d digits, takes %d bytes when cut, and matches no field.\n",
           start_digits(INNER), PLANT_FIELD, start_digits(OUTAGE), start_digits(OUTAGE) / 4 + 1);
    return 0;
}
