/* The audit as a C program calls it: each reason, several at once, every kind of R, no IDs, a null pointer, and all IDs
   that there are. Every call is held to its answer and the row, which stays. */
#include <fizrahum.h>

#include <stdio.h>
#include <string.h>

/* all IDs but 0, and the row with one more */
enum { ALL = 65535, SIZE = ALL + 1 };

static int checks, failures;

static void expect(const char *what, const uint16_t *ids, size_t count, uint64_t reserved, size_t wanted)
{
    static uint16_t before[SIZE];

    if (count > 0)
        memcpy(before, ids, count * sizeof ids[0]);
    size_t found = fizrahum_audit(ids, count, reserved);
    int changed = count > 0 && memcmp(before, ids, count * sizeof ids[0]) != 0;
    checks++;
    if (found != wanted || changed) {
        failures++;
        fprintf(stderr, "%s, R = %llu: found %zu, wanted %zu%s\n", what, (unsigned long long)reserved, found, wanted,
                changed ? "; the row was written to" : "");
    }
}

/* Where `wanted` is the count, there is none. */
static const struct {
    const char *name;
    size_t count;
    uint16_t ids[5];
    uint64_t reserved;
    size_t wanted;
} rows[] = {
    {"one ID", 1, {1}, 0, 1},
    {"ID 0 alone", 1, {0}, 0, 0},
    {"ID 0 first", 3, {0, 1, 2}, 0, 0},
    {"ID 0 between", 3, {1, 0, 2}, 0, 1},
    {"ID 0 last", 3, {1, 2, 0}, 0, 2},
    {"ID 0 beside R", 3, {39, 40, 0}, 38, 2},
    {"R = 0", 4, {1, 2, 3, 65535}, 0, 4},
    {"ID 1 with R = 1", 2, {2, 1}, 1, 1},
    {"the ID above R", 3, {41, 40, 39}, 38, 3},
    {"an ID equal to R", 3, {40, 39, 38}, 38, 2},
    {"an ID below R", 3, {40, 39, 1}, 38, 2},
    {"reserved IDs alone", 2, {37, 38}, 38, 0},
    {"R = 255 and IDs from 256 on", 4, {256, 257, 258, 65535}, 255, 4},
    {"R = 255 and ID 255", 4, {256, 257, 255, 258}, 255, 2},
    {"R = 256 and ID 256", 2, {257, 256}, 256, 1},
    {"R = 65534 and ID 65535", 1, {65535}, 65534, 1},
    {"R = 65534 and ID 65534", 2, {65535, 65534}, 65534, 1},
    {"R = 65535", 2, {65535, 65534}, 65535, 0},
    {"R = 65536, whose low 16 bits are 0", 1, {65535}, 65536, 0},
    {"R = 2^32, whose low 32 bits are 0", 1, {65535}, (uint64_t)1 << 32, 0},
    {"R = 2^63", 1, {65535}, (uint64_t)1 << 63, 0},
    {"the greatest R", 2, {65535, 1}, UINT64_MAX, 0},
    {"neighbours equal", 4, {39, 40, 40, 41}, 38, 2},
    {"the first two equal", 3, {39, 39, 40}, 38, 1},
    {"the first and the last equal", 5, {39, 40, 41, 42, 39}, 38, 4},
    {"all equal", 3, {7, 7, 7}, 0, 1},
    {"one pair within another", 4, {1, 2, 2, 1}, 0, 2},
    {"two pairs in turn", 4, {1, 2, 1, 2}, 0, 2},
    {"65535 twice", 3, {65535, 1, 65535}, 0, 2},
    {"equal, then 0", 3, {39, 39, 0}, 38, 1},
    {"0, then equal", 3, {0, 39, 39}, 38, 0},
    {"reserved, then equal", 3, {39, 38, 39}, 38, 1},
    {"reserved and equal", 3, {39, 38, 38}, 38, 1},
    {"64 apart", 5, {1, 65, 129, 193, 257}, 0, 5},
    {"256 apart", 5, {1, 257, 513, 769, 1025}, 0, 5},
    {"4096 apart", 5, {1, 4097, 8193, 12289, 61441}, 0, 5},
    {"one beside the next", 5, {63, 64, 62, 65, 128}, 0, 5},
};

static void short_rows(void)
{
    for (size_t i = 0; i < sizeof rows / sizeof rows[0]; i++)
        expect(rows[i].name, rows[i].ids, rows[i].count, rows[i].reserved, rows[i].wanted);
}

/* An empty row has none, whatever R is and wherever the pointer points. */
static void no_ids(void)
{
    static const uint64_t reserved[] = {0, 38, 65535, UINT64_MAX};
    static const uint16_t zero = 0;

    for (size_t i = 0; i < sizeof reserved / sizeof reserved[0]; i++) {
        expect("a null pointer", NULL, 0, reserved[i], 0);
        expect("no IDs", &zero, 0, reserved[i], 0);
    }
}

/* IDs 1 to 65535 in this order: one more is always found, and nothing is kept from the call before. */
static void all_ids(void)
{
    static uint16_t ids[SIZE];
    static const uint16_t more[] = {0, 1, 2, 32768, 65534, 65535};

    for (size_t i = 0; i < ALL; i++)
        ids[i] = (uint16_t)(i + 1);
    expect("1 to 65535", ids, ALL, 0, ALL);
    expect("1 to 65535 again", ids, ALL, 0, ALL);
    expect("1 to 65535", ids, ALL, 1, 0);
    expect("39 to 65535", ids + 38, ALL - 38, 38, ALL - 38);
    expect("38 to 65535", ids + 37, ALL - 37, 38, 0);
    expect("256 to 65535", ids + 255, ALL - 255, 255, ALL - 255);
    for (size_t i = 0; i < sizeof more / sizeof more[0]; i++) {
        ids[ALL] = more[i];
        expect("1 to 65535 and one more", ids, SIZE, 0, ALL);
        expect("1 to 65535 without the one more", ids, ALL, 0, ALL);
    }
}

/* The same from 65535 down: the first reserved one is R itself. */
static void all_ids_downward(void)
{
    static uint16_t ids[ALL];

    for (size_t i = 0; i < ALL; i++)
        ids[i] = (uint16_t)(ALL - i);
    expect("65535 to 1", ids, ALL, 0, ALL);
    expect("65535 to 1", ids, ALL, 1, ALL - 1);
    expect("65535 to 1", ids, ALL, 38, ALL - 38);
    expect("65535 to 1", ids, ALL, 255, ALL - 255);
    expect("65535 to 1", ids, ALL, 65534, 1);
    expect("65535 to 1", ids, ALL, 65535, 0);
}

int main(void)
{
    short_rows();
    no_ids();
    all_ids();
    all_ids_downward();
    printf("compared: audit from C: %d checks, %d failed\n", checks, failures);
    return failures == 0 ? 0 : 1;
}
