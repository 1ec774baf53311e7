/* The reader as a C program calls it: document 01's examples 3 to 9, each answer, and a null pointer.
   Every call is held to its answer, all six numbers, and the bytes, which stay. */
#include <fizrahum.h>

#include <stdio.h>
#include <string.h>

/* What the reader answers, and the six numbers in the order of its parameters. */
struct reading {
    uint8_t answer, type, seq;
    size_t payload, len, dropped, removed;
};

static int checks, failures;

static struct reading reading_of(const uint8_t *bytes, size_t length)
{
    /* no number starts as 0, so that one which is left unset shows */
    struct reading r = {99, 99, 99, 99, 99, 99, 99};

    r.answer = fizrahum_read(bytes, length, &r.type, &r.seq, &r.payload, &r.len, &r.dropped, &r.removed);
    return r;
}

static void print(const char *what, struct reading r)
{
    fprintf(stderr, "    %s: answer %u, TYPE %02x, SEQ %u, payload %zu, LEN %zu, dropped %zu, removed %zu\n", what,
            (unsigned)r.answer, (unsigned)r.type, (unsigned)r.seq, r.payload, r.len, r.dropped, r.removed);
}

static void expect(const char *what, const uint8_t *bytes, size_t length, struct reading wanted)
{
    uint8_t before[64];

    if (length > 0)
        memcpy(before, bytes, length);
    struct reading found = reading_of(bytes, length);
    checks++;
    if (found.answer != wanted.answer || found.type != wanted.type || found.seq != wanted.seq ||
        found.payload != wanted.payload || found.len != wanted.len || found.dropped != wanted.dropped ||
        found.removed != wanted.removed || (length > 0 && memcmp(before, bytes, length) != 0)) {
        failures++;
        fprintf(stderr, "%s:\n", what);
        print("found", found);
        print("wanted", wanted);
    }
}

static void examples(void)
{
    static const struct {
        const char *name;
        size_t length;
        uint8_t bytes[18];
        struct reading wanted;
    } cases[] = {
        {"example 3", 10, {0xAA, 0x55, 0x40, 0, 0, 0, 0x5C, 0xEA, 0xFF, 0xFF},
         {FIZRAHUM_MESSAGE, FIZRAHUM_ACK, 0, 8, 0, 0, 10}},
        {"example 4", 10, {0xAA, 0x55, 0x40, 0, 0, 0xFF, 0xAC, 0xF4, 0xFF, 0xFF},
         {FIZRAHUM_MESSAGE, FIZRAHUM_ACK, 255, 8, 0, 0, 10}},
        {"example 5", 10, {0xAA, 0x55, 0x04, 0, 0, 0, 0x31, 0x4E, 0xFF, 0xFF},
         {FIZRAHUM_MESSAGE, FIZRAHUM_NAK, 0, 8, 0, 0, 10}},
        {"example 6", 18, {0xAA, 0x55, 0x80, 0x08, 0, 0, 0x59, 0xF0, 0x80, 3, 1, 0, 1, 0x27, 0, 1, 0x5E, 0x34},
         {FIZRAHUM_MESSAGE, FIZRAHUM_DATA_SEQ, 0, 8, 8, 0, 18}},
        {"example 7", 12, {0x00, 0xAA, 0xAA, 0x55, 0x40, 0, 0, 0, 0x5C, 0xEA, 0xFF, 0xFF},
         {FIZRAHUM_MESSAGE, FIZRAHUM_ACK, 0, 10, 0, 2, 10}},
        {"example 8", 9, {0xAA, 0x55, 0x40, 0, 0, 0, 0x5C, 0xEA, 0xFF}, {FIZRAHUM_UNDECIDED, 0, 0, 0, 0, 0, 0}},
        {"example 9", 10, {0xAA, 0x55, 0x40, 0, 0, 0, 0x5C, 0xEA, 0xFF, 0xFE},
         {FIZRAHUM_DAMAGED_PAYLOAD, 0, 0, 0, 0, 0, 2}},
    };

    for (size_t i = 0; i < sizeof cases / sizeof cases[0]; i++)
        expect(cases[i].name, cases[i].bytes, cases[i].length, cases[i].wanted);
}

/* What stands in front of AA 55 is dropped, and a lone AA at the end is kept. */
static void dropping(void)
{
    static const uint8_t bytes[] = {0x55, 0x00, 0xAA, 0xAA};

    expect("a null pointer", NULL, 0, (struct reading){FIZRAHUM_UNDECIDED, 0, 0, 0, 0, 0, 0});
    expect("55", bytes, 1, (struct reading){FIZRAHUM_UNDECIDED, 0, 0, 0, 0, 1, 0});
    expect("55 00", bytes, 2, (struct reading){FIZRAHUM_UNDECIDED, 0, 0, 0, 0, 2, 0});
    expect("55 00 AA", bytes, 3, (struct reading){FIZRAHUM_UNDECIDED, 0, 0, 0, 0, 2, 0});
    expect("55 00 AA AA", bytes, 4, (struct reading){FIZRAHUM_UNDECIDED, 0, 0, 0, 0, 3, 0});
}

/* Makes the header's checksum right for TYPE, LEN and SEQ as they stand. */
static void remake_checksum(uint8_t *message)
{
    const uint16_t checksum = fizrahum_checksum(message + 2, 4);

    message[6] = (uint8_t)(checksum & 0xFF);
    message[7] = (uint8_t)(checksum >> 8);
}

/* A wrong header checksum is found before a forbidden header, and that before a missing payload. */
static void headers(void)
{
    uint8_t data[8] = {0xAA, 0x55, FIZRAHUM_DATA_SEQ, 0x01, 0x01, 0x00};
    uint8_t nak[10] = {0xAA, 0x55, FIZRAHUM_NAK, 0x00, 0x00, 0x07, 0x00, 0x00, 0xFF, 0xFF};

    remake_checksum(data);
    expect("LEN 257, 7 bytes", data, 7, (struct reading){FIZRAHUM_UNDECIDED, 0, 0, 0, 0, 0, 0});
    expect("LEN 257", data, 8, (struct reading){FIZRAHUM_FORBIDDEN, 0, 0, 0, 0, 0, 2});
    data[7] ^= 0x80;
    expect("LEN 257, wrong checksum", data, 8, (struct reading){FIZRAHUM_DAMAGED_HEADER, 0, 0, 0, 0, 0, 2});
    remake_checksum(nak);
    expect("NAK with SEQ 7", nak, 10, (struct reading){FIZRAHUM_MESSAGE, FIZRAHUM_NAK, 7, 8, 0, 0, 10});
}

/* A message with an ACK in its payload, whole and damaged: only in the damaged one is the ACK found. */
static void ack_in_a_payload(void)
{
    uint8_t bytes[22], payload[12] = {0};

    fizrahum_write(payload, sizeof payload, 1, FIZRAHUM_ACK, 5, NULL, 0);
    fizrahum_write(bytes, sizeof bytes, 0, FIZRAHUM_DATA_NSQ, 3, payload, sizeof payload);
    expect("whole", bytes, 22, (struct reading){FIZRAHUM_MESSAGE, FIZRAHUM_DATA_NSQ, 3, 8, 12, 0, 22});
    bytes[8] ^= 1;
    expect("damaged", bytes, 22, (struct reading){FIZRAHUM_DAMAGED_PAYLOAD, 0, 0, 0, 0, 0, 2});
    expect("the ACK in it", bytes + 2, 20, (struct reading){FIZRAHUM_MESSAGE, FIZRAHUM_ACK, 5, 15, 0, 7, 10});
    expect("what is left", bytes + 19, 3, (struct reading){FIZRAHUM_UNDECIDED, 0, 0, 0, 0, 3, 0});
}

int main(void)
{
    examples();
    dropping();
    headers();
    ack_in_a_payload();
    printf("compared: reader from C: %d checks, %d failed\n", checks, failures);
    return failures == 0 ? 0 : 1;
}
