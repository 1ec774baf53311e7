/* The writer as a C program calls it: document 01's examples 3 to 6 at several places, each refusal, and null pointers.
   Every call is held to the whole buffer afterwards. */
#include <fizrahum.h>

#include <stdio.h>
#include <string.h>

enum { SIZE = 300 };

static int checks, failures;

static const uint8_t command[8] = {0x80, 0x03, 0x01, 0x00, 0x01, 0x27, 0x00, 0x01};
static const uint8_t zeros[FIZRAHUM_MAX_LEN + 1];

static void expect(const char *what, size_t found, size_t wanted)
{
    checks++;
    if (found != wanted) {
        failures++;
        fprintf(stderr, "%s: found %zu, wanted %zu\n", what, found, wanted);
    }
}

static void expect_bytes(const char *what, const uint8_t *found, const uint8_t *wanted, size_t length)
{
    checks++;
    if (memcmp(found, wanted, length) != 0) {
        failures++;
        fprintf(stderr, "%s: the buffer is not what was wanted\n", what);
    }
}

static void fill(uint8_t *bytes, size_t length)
{
    for (size_t i = 0; i < length; i++)
        bytes[i] = (uint8_t)(i * 37 + 11);
}

static void examples(void)
{
    static const struct {
        const char *name;
        uint8_t type, seq;
        size_t length; /* of the payload, the first bytes of the command */
        uint8_t bytes[18];
    } cases[] = {
        {"example 3", FIZRAHUM_ACK, 0, 0, {0xAA, 0x55, 0x40, 0x00, 0x00, 0x00, 0x5C, 0xEA, 0xFF, 0xFF}},
        {"example 4", FIZRAHUM_ACK, 255, 0, {0xAA, 0x55, 0x40, 0x00, 0x00, 0xFF, 0xAC, 0xF4, 0xFF, 0xFF}},
        {"example 5", FIZRAHUM_NAK, 0, 0, {0xAA, 0x55, 0x04, 0x00, 0x00, 0x00, 0x31, 0x4E, 0xFF, 0xFF}},
        {"example 6", FIZRAHUM_DATA_SEQ, 0, 8, {0xAA, 0x55, 0x80, 0x08, 0x00, 0x00, 0x59, 0xF0, 0x80,
                                                0x03, 0x01, 0x00, 0x01, 0x27, 0x00, 0x01, 0x5E, 0x34}},
    };

    for (size_t i = 0; i < sizeof cases / sizeof cases[0]; i++) {
        const size_t length = FIZRAHUM_OVERHEAD + cases[i].length;
        const size_t places[] = {0, 1, 7, SIZE - length};

        for (size_t j = 0; j < sizeof places / sizeof places[0]; j++) {
            uint8_t buffer[SIZE], wanted[SIZE];
            const uint8_t *payload = cases[i].length == 0 ? NULL : command;

            fill(buffer, SIZE);
            fill(wanted, SIZE);
            memcpy(wanted + places[j], cases[i].bytes, length);
            size_t answer = fizrahum_write(buffer, SIZE, places[j], cases[i].type, cases[i].seq, payload,
                                           cases[i].length);
            expect(cases[i].name, answer, length);
            expect_bytes(cases[i].name, buffer, wanted, SIZE);
        }
    }
}

static const struct {
    const char *name;
    size_t place;
    uint8_t type, seq;
    size_t length, wanted;
} refused[] = {
    {"data with LEN 0", 0, FIZRAHUM_DATA_SEQ, 0, 0, FIZRAHUM_FORBIDDEN_HEADER},
    {"data without SEQ, LEN 0", 0, FIZRAHUM_DATA_NSQ, 0, 0, FIZRAHUM_FORBIDDEN_HEADER},
    {"data with LEN 257", 0, FIZRAHUM_DATA_SEQ, 0, 257, FIZRAHUM_FORBIDDEN_HEADER},
    {"data without SEQ, LEN 257", 0, FIZRAHUM_DATA_NSQ, 0, 257, FIZRAHUM_FORBIDDEN_HEADER},
    {"ACK with LEN 1", 0, FIZRAHUM_ACK, 0, 1, FIZRAHUM_FORBIDDEN_HEADER},
    {"NAK with LEN 1", 0, FIZRAHUM_NAK, 0, 1, FIZRAHUM_FORBIDDEN_HEADER},
    {"NAK with SEQ 1", 0, FIZRAHUM_NAK, 1, 0, FIZRAHUM_FORBIDDEN_HEADER},
    {"TYPE 0x44", 0, 0x44, 0, 0, FIZRAHUM_FORBIDDEN_HEADER},
    {"ACK one past", SIZE - 9, FIZRAHUM_ACK, 0, 0, FIZRAHUM_NO_ROOM},
    {"ACK at the end", SIZE, FIZRAHUM_ACK, 0, 0, FIZRAHUM_NO_ROOM},
    {"ACK where the sum would wrap", SIZE_MAX - 9, FIZRAHUM_ACK, 0, 0, FIZRAHUM_NO_ROOM},
    {"ACK at SIZE_MAX", SIZE_MAX, FIZRAHUM_ACK, 0, 0, FIZRAHUM_NO_ROOM},
    {"LEN 256 one past", SIZE - 265, FIZRAHUM_DATA_SEQ, 0, 256, FIZRAHUM_NO_ROOM},
    {"LEN 256 at SIZE_MAX", SIZE_MAX, FIZRAHUM_DATA_SEQ, 0, 256, FIZRAHUM_NO_ROOM},
    {"7 before 6: TYPE", SIZE, 0x44, 0, 0, FIZRAHUM_FORBIDDEN_HEADER},
    {"7 before 6: LEN", SIZE_MAX, FIZRAHUM_DATA_SEQ, 0, 257, FIZRAHUM_FORBIDDEN_HEADER},
    {"7 before 6: SEQ", SIZE_MAX, FIZRAHUM_NAK, 255, 0, FIZRAHUM_FORBIDDEN_HEADER},
};

static void refusals(void)
{
    for (size_t i = 0; i < sizeof refused / sizeof refused[0]; i++) {
        uint8_t buffer[SIZE], before[SIZE];

        fill(buffer, SIZE);
        fill(before, SIZE);
        size_t answer = fizrahum_write(buffer, SIZE, refused[i].place, refused[i].type, refused[i].seq, zeros,
                                       refused[i].length);
        expect(refused[i].name, answer, refused[i].wanted);
        expect_bytes(refused[i].name, buffer, before, SIZE);
    }
}

static void greatest_len(void)
{
    uint8_t buffer[SIZE], payload[FIZRAHUM_MAX_LEN];
    const size_t length = FIZRAHUM_OVERHEAD + FIZRAHUM_MAX_LEN;

    fill(payload, sizeof payload);
    expect("LEN 256", fizrahum_write(buffer, length, 0, FIZRAHUM_DATA_NSQ, 9, payload, sizeof payload), length);
    expect("LEN 256, its low byte", buffer[3], 0);
    expect("LEN 256, its high byte", buffer[4], 1);
    expect_bytes("LEN 256, the payload", buffer + 8, payload, sizeof payload);
}

static void null_pointers(void)
{
    expect("no buffer", fizrahum_write(NULL, 0, 0, FIZRAHUM_ACK, 0, NULL, 0), FIZRAHUM_NO_ROOM);
    expect("no buffer, SIZE_MAX", fizrahum_write(NULL, 0, SIZE_MAX, FIZRAHUM_NAK, 0, NULL, 0), FIZRAHUM_NO_ROOM);
    expect("no buffer, forbidden", fizrahum_write(NULL, 0, 0, FIZRAHUM_DATA_SEQ, 0, NULL, 0),
           FIZRAHUM_FORBIDDEN_HEADER);
}

int main(void)
{
    examples();
    refusals();
    greatest_len();
    null_pointers();
    printf("compared: writer from C: %d checks, %d failed\n", checks, failures);
    return failures == 0 ? 0 : 1;
}
