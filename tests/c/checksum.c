/* The checksum as a C program calls it: published vectors, no bytes, a null pointer, and 16 MiB. */
#include <fizrahum.h>

#include <stdio.h>
#include <stdlib.h>
#include <string.h>

static int checks, failures;

static void expect(const char *what, uint16_t found, uint16_t wanted)
{
    checks++;
    if (found != wanted) {
        failures++;
        fprintf(stderr, "checksum of %s: found %04x, wanted %04x\n", what, (unsigned)found, (unsigned)wanted);
    }
}

static void published_vectors(void)
{
    static const struct {
        const char *name;
        size_t length;
        const uint8_t bytes[9];
        uint16_t checksum;
    } vectors[] = {
        {"123456789", 9, {'1', '2', '3', '4', '5', '6', '7', '8', '9'}, 0x29B1},
        {"no bytes", 0, {0}, 0xFFFF},
        {"00000000", 4, {0x00, 0x00, 0x00, 0x00}, 0x84C0},
        {"F20183", 3, {0xF2, 0x01, 0x83}, 0xD374},
        {"0FAA0055", 4, {0x0F, 0xAA, 0x00, 0x55}, 0x2023},
        {"00FF5511", 4, {0x00, 0xFF, 0x55, 0x11}, 0xB8F9},
        {"332255AABBCCDDEEFF", 9, {0x33, 0x22, 0x55, 0xAA, 0xBB, 0xCC, 0xDD, 0xEE, 0xFF}, 0xF53F},
        {"926B55", 3, {0x92, 0x6B, 0x55}, 0x0745},
        {"FFFFFFFF", 4, {0xFF, 0xFF, 0xFF, 0xFF}, 0x1D0F},
    };

    for (size_t i = 0; i < sizeof vectors / sizeof vectors[0]; i++)
        expect(vectors[i].name, fizrahum_checksum(vectors[i].bytes, vectors[i].length), vectors[i].checksum);
}

/* The checksum followed by itself, high byte first, leaves 0: a property of every such code, whatever the bytes. */
static void sixteen_mebibytes(void)
{
    const size_t length = (size_t)16 << 20;
    uint8_t *bytes = malloc(length + 2);

    if (bytes == NULL) {
        fputs("no memory for 16 MiB\n", stderr);
        exit(1);
    }
    for (size_t i = 0; i < length; i++)
        bytes[i] = (uint8_t)(i * 2654435761u >> 13);
    uint16_t checksum = fizrahum_checksum(bytes, length);
    bytes[length] = (uint8_t)(checksum >> 8);
    bytes[length + 1] = (uint8_t)(checksum & 0xFF);
    expect("16 MiB and their checksum", fizrahum_checksum(bytes, length + 2), 0);
    free(bytes);
}

static void buffer_is_only_read(void)
{
    uint8_t bytes[64], before[64];

    for (size_t i = 0; i < sizeof bytes; i++)
        bytes[i] = (uint8_t)(i * 37);
    memcpy(before, bytes, sizeof bytes);
    uint16_t first = fizrahum_checksum(bytes, sizeof bytes);
    expect("the same 64 bytes again", fizrahum_checksum(before, sizeof before), first);
    checks++;
    if (memcmp(before, bytes, sizeof bytes) != 0) {
        failures++;
        fputs("the buffer was written to\n", stderr);
    }
}

int main(void)
{
    published_vectors();
    expect("a null pointer and length 0", fizrahum_checksum(NULL, 0), 0xFFFF);
    sixteen_mebibytes();
    buffer_is_only_read();
    printf("compared: checksum from C: %d checks, %d failed\n", checks, failures);
    return failures == 0 ? 0 : 1;
}
