/* The five records of document 01's listing and a bare send, written and read, and what must be refused. Prints a short report; exits with 1 on any
 * difference. */
#include <stdio.h>
#include <string.h>
#include "hyaloneth_wire.h"

#define ROOM 48
#define AT 7
#define FILL 0xee

static int failures;

static void expect(const char *what, int holds)
{
    if (!holds) {
        failures++;
        printf("FAILED: %s\n", what);
    }
}

/* A record was placed at AT, with the bytes around it untouched, and is read as these numbers. */
static void record(const char *name, uint64_t result, const uint8_t out[ROOM], const uint8_t *bytes, size_t n,
                   const uint32_t numbers[HYL_WIRE_PLACES])
{
    uint32_t read[HYL_WIRE_PLACES + 1];
    uint64_t answer;
    size_t i;

    expect(name, HYL_KIND(result) == HYL_DONE && HYL_COUNT(result) == n && HYL_REFUSAL(result) == 0);
    expect(name, memcmp(out + AT, bytes, n) == 0);
    for (i = 0; i < ROOM; i++)
        expect(name, (i >= AT && i < AT + n) || out[i] == FILL);
    memset(read, FILL, sizeof read);
    answer = hyl_wire_read(bytes, n, read, HYL_WIRE_PLACES + 1);
    expect(name, answer == 0);
    expect(name, memcmp(read, numbers, HYL_WIRE_PLACES * sizeof *numbers) == 0);
    expect(name, read[HYL_WIRE_PLACES] == 0xeeeeeeeeu);
    printf("%-8s %2u bytes\n", name, HYL_COUNT(result));
}

/* A call was refused with this number, and the buffer is untouched. */
static void refused(const char *name, uint64_t result, uint32_t number, const uint8_t out[ROOM])
{
    size_t i;

    expect(name, HYL_KIND(result) == HYL_REFUSED && HYL_REFUSAL(result) == number && HYL_COUNT(result) == 0);
    for (i = 0; i < ROOM; i++)
        expect(name, out[i] == FILL);
    printf("%-28s refused %u\n", name, HYL_REFUSAL(result));
}

int main(void)
{
    static const uint8_t send[] = {0x12, 0x00, 0x18, 0x01, 0x00, 0x01, 0x00, 0x02, 0x00, 0x01, 0x00, 0x05, 0x00, 0x01,
                                   0x01, 0x06, 0x00, 0x01, 0x02, 0x07, 0x00, 0x01, 0x01, 0x08, 0x00, 0x01, 0x01};
    static const uint8_t deliver[] = {0x13, 0x00, 0x04, 0x09, 0x00, 0x01, 0x00};
    static const uint8_t store[] = {0x11, 0x00, 0x13, 0x01, 0x00, 0x01, 0x01, 0x02, 0x00, 0x01, 0x00,
                                    0x03, 0x00, 0x01, 0x00, 0x04, 0x00, 0x04, 0x00, 0x00, 0x00, 0x2a};
    static const uint8_t load1[] = {0x10, 0x00, 0x0c, 0x01, 0x00, 0x01, 0x01, 0x02, 0x00, 0x01, 0x00, 0x03, 0x00, 0x01, 0x00};
    static const uint8_t load2[] = {0x10, 0x00, 0x0c, 0x01, 0x00, 0x01, 0x02, 0x02, 0x00, 0x01, 0x00, 0x03, 0x00, 0x01, 0x00};
    /* Board 2 gives block 0 back: two plain tokens and the owner, which must be clean, and no data. */
    static const uint8_t bare[] = {0x12, 0x00, 0x18, 0x01, 0x00, 0x01, 0x02, 0x02, 0x00, 0x01, 0x00, 0x05, 0x00, 0x01,
                                   0x00, 0x06, 0x00, 0x01, 0x02, 0x07, 0x00, 0x01, 0x01, 0x08, 0x00, 0x01, 0x00};
    static const uint32_t sent[HYL_WIRE_PLACES] = {HYL_SEND, 0, 0, 0, 0, 1, 2, 1, 1};
    static const uint32_t delivered[HYL_WIRE_PLACES] = {HYL_DELIVER};
    static const uint32_t stored[HYL_WIRE_PLACES] = {HYL_STORE, 1, 0, 0, 0x2a};
    static const uint32_t loaded1[HYL_WIRE_PLACES] = {HYL_LOAD, 1};
    static const uint32_t loaded2[HYL_WIRE_PLACES] = {HYL_LOAD, 2};
    static const uint32_t sent_bare[HYL_WIRE_PLACES] = {HYL_SEND, 2, 0, 0, 0, 0, 2, 1, 0};
    uint8_t out[ROOM];
    uint8_t bad[sizeof load1 + 1];
    uint32_t numbers[HYL_WIRE_PLACES];
    uint32_t untouched[HYL_WIRE_PLACES];
    size_t i;

#define CLEAR memset(out, FILL, sizeof out)
    CLEAR;
    record("send", hyl_wire_write_send(out, ROOM, AT, 0, 0, 1, 2, 1, 1), out, send, sizeof send, sent);
    CLEAR;
    record("deliver", hyl_wire_write_deliver(out, ROOM, AT, 0), out, deliver, sizeof deliver, delivered);
    CLEAR;
    record("store", hyl_wire_write_store(out, ROOM, AT, 1, 0, 0, 0x2a), out, store, sizeof store, stored);
    CLEAR;
    record("load", hyl_wire_write_load(out, ROOM, AT, 1, 0, 0), out, load1, sizeof load1, loaded1);
    CLEAR;
    record("load", hyl_wire_write_load(out, ROOM, AT, 2, 0, 0), out, load2, sizeof load2, loaded2);
    CLEAR;
    record("bare", hyl_wire_write_send(out, ROOM, AT, 2, 0, 0, 2, 1, 0), out, bare, sizeof bare, sent_bare);

    /* Torn: a byte too few, a byte too many, another kind byte, another tag, the high byte of a length. */
    memset(untouched, FILL, sizeof untouched);
    CLEAR;
    memcpy(bad, load1, sizeof load1);
    bad[sizeof load1] = 0;
    memset(numbers, FILL, sizeof numbers);
    refused("a byte too few", hyl_wire_read(bad, sizeof load1 - 1, numbers, HYL_WIRE_PLACES), HYL_TORN, out);
    refused("a byte too many", hyl_wire_read(bad, sizeof load1 + 1, numbers, HYL_WIRE_PLACES), HYL_TORN, out);
    bad[0] = 0x17;
    refused("kind byte 17", hyl_wire_read(bad, sizeof load1, numbers, HYL_WIRE_PLACES), HYL_TORN, out);
    bad[0] = 0x10;
    bad[3] = 0x02;
    refused("tag 02 for 01", hyl_wire_read(bad, sizeof load1, numbers, HYL_WIRE_PLACES), HYL_TORN, out);
    bad[3] = 0x01;
    bad[4] = 0x01;
    refused("field length 0101", hyl_wire_read(bad, sizeof load1, numbers, HYL_WIRE_PLACES), HYL_TORN, out);
    refused("no bytes", hyl_wire_read(bad, 0, numbers, HYL_WIRE_PLACES), HYL_TORN, out);
    refused("11 places", hyl_wire_read(load1, sizeof load1, numbers, HYL_WIRE_PLACES - 1), HYL_SHORT_BUFFER, out);
    expect("numbers untouched", memcmp(numbers, untouched, sizeof numbers) == 0);

    refused("no room by a byte", hyl_wire_write_deliver(out, ROOM, ROOM - sizeof deliver + 1, 0), HYL_SHORT_BUFFER, out);
    refused("past the end", hyl_wire_write_deliver(out, ROOM, ROOM + 1, 0), HYL_SHORT_BUFFER, out);
    refused("far past the end", hyl_wire_write_deliver(out, ROOM, SIZE_MAX, 0), HYL_SHORT_BUFFER, out);
    refused("component 258", hyl_wire_write_load(out, ROOM, AT, 258, 0, 0), HYL_TORN, out);
    refused("owner 2", hyl_wire_write_send(out, ROOM, AT, 0, 0, 1, 2, 2, 1), HYL_TORN, out);
    refused("258, no room", hyl_wire_write_load(out, ROOM, ROOM, 258, 0, 0), HYL_TORN, out);
    memcpy(numbers, loaded1, sizeof numbers);
    refused("11 numbers", hyl_wire_write(numbers, HYL_WIRE_PLACES - 1, out, ROOM, AT), HYL_TORN, out);
    numbers[HYL_VALUE] = 1;
    refused("a load with a value", hyl_wire_write(numbers, HYL_WIRE_PLACES, out, ROOM, AT), HYL_TORN, out);
    numbers[HYL_VALUE] = 0;
    numbers[11] = 1;
    refused("a number at place 11", hyl_wire_write(numbers, HYL_WIRE_PLACES, out, ROOM, AT), HYL_TORN, out);
    numbers[11] = 0;
    for (i = 0; i < 3; i++) {
        static const uint32_t kinds[] = {0x0f, 0x17, 0x110};
        numbers[0] = kinds[i];
        refused("an unknown kind", hyl_wire_write(numbers, HYL_WIRE_PLACES, out, ROOM, AT), HYL_TORN, out);
    }

    printf(failures ? "%d differences\n" : "no difference\n", failures);
    return failures != 0;
}
