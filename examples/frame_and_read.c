/*
 * Frames a command, damages one byte of it as a noisy line would, and lists
 * what the reader finds in the bytes that arrive. A place to start from.
 *
 *     cc -Iinclude examples/frame_and_read.c crates/c_api/out/libc_api.a
 *
 * frame_and_read.stdout beside this file is what it prints.
 */
#include <fizrahum.h>

#include <stdio.h>
#include <stdlib.h>

static void print_bytes(const uint8_t *bytes, size_t length)
{
    for (size_t i = 0; i < length; i++)
        printf(" %02X", (unsigned)bytes[i]);
    putchar('\n');
}

/*
 * Writes a message at `place`, and answers the place behind it. The writer's
 * answer is a length or a refusal: look which before using it as a length.
 */
static size_t frame(uint8_t *buffer, size_t size, size_t place, uint8_t type,
                    uint8_t seq, const uint8_t *payload, size_t length)
{
    size_t answer =
        fizrahum_write(buffer, size, place, type, seq, payload, length);

    if (answer < FIZRAHUM_OVERHEAD) {
        fprintf(stderr, "not written: %s\n",
                answer == FIZRAHUM_NO_ROOM ? "no room" : "forbidden header");
        exit(EXIT_FAILURE);
    }
    return place + answer;
}

static const char *name_of(uint8_t type)
{
    switch (type) {
    case FIZRAHUM_NAK:
        return "NAK";
    case FIZRAHUM_ACK:
        return "ACK";
    case FIZRAHUM_DATA_SEQ:
        return "DATA_SEQ";
    default:
        return "DATA_NSQ"; /* no message has another TYPE */
    }
}

/*
 * Lists every item in the bytes, and answers how many bytes are left at the
 * end that decide nothing yet: keep those, and read them again with the next
 * ones behind them.
 */
static size_t list_items(const uint8_t *bytes, size_t length)
{
    for (;;) {
        uint8_t type, seq;
        size_t payload, len, dropped, removed;
        uint8_t answer = fizrahum_read(bytes, length, &type, &seq, &payload,
                                       &len, &dropped, &removed);

        if (dropped > 0)
            printf("  %zu bytes dropped\n", dropped);
        switch (answer) {
        case FIZRAHUM_UNDECIDED:
            return length - dropped;
        case FIZRAHUM_DAMAGED_HEADER:
            puts("  damaged header");
            break;
        case FIZRAHUM_FORBIDDEN:
            puts("  forbidden header");
            break;
        case FIZRAHUM_DAMAGED_PAYLOAD:
            puts("  damaged payload");
            break;
        case FIZRAHUM_MESSAGE:
            printf("  %s, SEQ %u, LEN %zu:", name_of(type), (unsigned)seq, len);
            print_bytes(bytes + payload, len);
            break;
        }
        bytes += dropped + removed;
        length -= dropped + removed;
    }
}

int main(void)
{
    static const uint8_t command[] = {
        0x80,       /* the first byte of every command */
        0x03,       /* TC */
        0x01,       /* TID */
        0x00,       /* SID */
        0x01,       /* IID */
        0x27, 0x00, /* RQID, low byte first */
        0x01,       /* CID; up to 248 data bytes may follow */
    };
    /* room for the longest message and an ACK */
    uint8_t line[FIZRAHUM_OVERHEAD + FIZRAHUM_MAX_LEN + FIZRAHUM_OVERHEAD];
    size_t end, left;

    /* the command with SEQ 0, and behind it an ACK, which has no payload */
    end = frame(line, sizeof line, 0, FIZRAHUM_DATA_SEQ, 0, command,
                sizeof command);
    printf("the command:");
    print_bytes(line, end);
    end = frame(line, sizeof line, end, FIZRAHUM_ACK, 0, NULL, 0);

    puts("the command and an ACK, as they were sent:");
    left = list_items(line, end);
    printf("  %zu bytes left\n", left);

    /*
     * Now one bit of TC flips. With a damaged item only its AA 55 is removed.
     * The search goes on right behind those two bytes, not behind the command,
     * drops what is left of the command and finds the ACK.
     */
    line[9] ^= 0x10;
    puts("the same with one byte damaged:");
    left = list_items(line, end);
    printf("  %zu bytes left\n", left);
    return EXIT_SUCCESS;
}
