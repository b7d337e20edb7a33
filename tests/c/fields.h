/* What the tests of plant.h share: the digits of a packed field. Needs guard.h and plant.h. */

/* 01's numbers, stated here once more on purpose. */
enum { LONGEST = 127, FIELD = 32 };

_Static_assert(PLANT_LONGEST == LONGEST && PLANT_FIELD == FIELD, "sizes");

/* of the four digits in a byte */
static const int weight[4] = {64, 16, 4, 1};

static inline int digit_at(const uint8_t *field, int k)
{
    return field[k / 4] >> (6 - 2 * (k % 4)) & 3;
}

/* A space and the digits, a zero before the last of them too, or a dash */
static inline void print_field(FILE *to, const uint8_t *field)
{
    int n = LONGEST + 1;

    while (n > 0 && digit_at(field, n - 1) == 0)
        n--;
    fprintf(to, n == 0 ? " -" : " ");
    for (int k = 0; k < n; k++)
        fprintf(to, "%d", digit_at(field, k));
}
