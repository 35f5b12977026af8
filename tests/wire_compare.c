/* Compares the reader and the writer with a second implementation, written from document 01's table of fields and kinds, on random and damaged
 * records and numbers. Argument: how many records (2000000 if none). Exits with 1 at the first difference. */
#include <stdio.h>
#include <stdlib.h>
#include <string.h>
#include "hyaloneth_wire.h"

#define ROOM 64

/* The tags of each kind's fields, from kind byte 10 on, and each tag's length and largest value. */
static const char *const kinds[7] = {"\1\2\3", "\1\2\3\4", "\1\2\5\6\7\10", "\11", "\1\2", "\1\2", "\1\2"};
static const size_t width[10] = {0, 1, 1, 1, 4, 1, 1, 1, 1, 1};
static const uint32_t most[10] = {0, 255, 255, 255, 0xffffffffu, 255, 255, 1, 1, 255};

static uint64_t seed = 0x9e3779b97f4a7c15u;

static uint32_t any(uint32_t below)
{
    seed ^= seed << 13;
    seed ^= seed >> 7;
    seed ^= seed << 17;
    return (uint32_t)((seed >> 16) % below);
}

static uint32_t word(void)
{
    return any(0x10000) << 16 | any(0x10000);
}

/* The refusal of reading, or 0 and the numbers. */
static uint32_t second_read(const uint8_t *b, size_t n, uint32_t f[HYL_WIRE_PLACES], size_t places)
{
    uint32_t g[HYL_WIRE_PLACES] = {0};
    size_t i = 3;
    const char *t;

    if (n < 3 || b[0] < 0x10 || b[0] > 0x16 || ((size_t)b[1] << 8 | b[2]) + 3 != n)
        return 1;
    g[0] = b[0];
    for (t = kinds[b[0] - 0x10]; *t; t++) {
        size_t w = width[(int)*t], k;
        uint32_t v = 0;
        if (i + 3 + w > n || b[i] != *t || b[i + 1] != 0 || b[i + 2] != w)
            return 1;
        for (k = 0; k < w; k++)
            v = v << 8 | b[i + 3 + k];
        if (v > most[(int)*t])
            return 1;
        g[(int)*t] = v;
        i += 3 + w;
    }
    if (i != n)
        return 1;
    if (places < HYL_WIRE_PLACES)
        return 20;
    memcpy(f, g, sizeof g);
    return 0;
}

/* The refusal of writing, or 0, with the count of bytes. */
static uint32_t second_write(const uint32_t *f, size_t places, uint8_t *out, size_t out_len, size_t at, uint32_t *count)
{
    uint8_t r[ROOM];
    size_t n = 3, p = 1;
    const char *t;

    if (places < HYL_WIRE_PLACES || f[0] < 0x10 || f[0] > 0x16)
        return 1;
    for (t = kinds[f[0] - 0x10]; *t; t++, p++) {
        int k;
        for (; p < (size_t)*t; p++)
            if (f[p])
                return 1;
        if (f[p] > most[p])
            return 1;
        r[n++] = (uint8_t)*t;
        r[n++] = 0;
        r[n++] = (uint8_t)width[p];
        for (k = (int)width[p] - 1; k >= 0; k--)
            r[n++] = (uint8_t)(f[p] >> 8 * k);
    }
    for (; p < HYL_WIRE_PLACES; p++)
        if (f[p])
            return 1;
    r[0] = (uint8_t)f[0];
    r[1] = 0;
    r[2] = (uint8_t)(n - 3);
    if (at > out_len || out_len - at < n)
        return 20;
    memcpy(out + at, r, n);
    *count = (uint32_t)n;
    return 0;
}

static int differ(const char *what, long k)
{
    printf("%s: different at %ld\n", what, k);
    return 1;
}

int main(int argc, char **argv)
{
    long rounds = argc > 1 ? atol(argv[1]) : 2000000, k;
    unsigned long count[2][21] = {{0}};

    for (k = 0; k < rounds; k++) {
        uint32_t f[HYL_WIRE_PLACES] = {0}, x[HYL_WIRE_PLACES + 1], y[HYL_WIRE_PLACES + 1], c = 0, s;
        uint8_t a[ROOM], b[ROOM], *record;
        const char *t, *tags = kinds[any(7)];
        size_t places = any(8) ? HYL_WIRE_PLACES : any(HYL_WIRE_PLACES + 2), len = any(ROOM + 1), at = any(4) ? any(40) : word(), n, i;
        uint64_t r;

        /* Numbers, sometimes damaged. */
        f[0] = 0x10 + any(7);
        if (any(2))
            tags = kinds[f[0] - 0x10];
        for (t = tags; *t; t++)
            f[(int)*t] = any(16) ? any(most[(int)*t] < 256 ? most[(int)*t] + 1 : 0xffffffffu) : word() >> any(32);
        if (!any(8))
            f[any(HYL_WIRE_PLACES)] = word() >> any(32);
        for (i = 0; i < ROOM; i++)
            a[i] = b[i] = (uint8_t)any(256);
        if (places > HYL_WIRE_PLACES)
            places = HYL_WIRE_PLACES;
        s = second_write(f, places, a, len, at, &c);
        r = hyl_wire_write(f, places, b, len, at);
        if (HYL_REFUSAL(r) != s || HYL_COUNT(r) != (s ? 0 : c) || memcmp(a, b, ROOM))
            return differ("written", k);
        count[0][s]++;

        /* A record, sometimes damaged, cut or grown. */
        f[0] = 0x10 + any(7);
        n = 3;
        for (t = kinds[f[0] - 0x10]; *t; t++) {
            size_t w = width[(int)*t];
            a[n++] = (uint8_t)*t;
            a[n++] = 0;
            a[n++] = (uint8_t)w;
            while (w--)
                a[n++] = (uint8_t)(any(16) && most[(int)*t] < 2 ? any(2) : any(256));
        }
        a[0] = (uint8_t)f[0];
        a[1] = 0;
        a[2] = (uint8_t)(n - 3);
        switch (any(5)) {
        case 0:
            a[any((uint32_t)n)] = (uint8_t)any(256);
            break;
        case 1:
            a[any((uint32_t)n)] ^= (uint8_t)(1 << any(8));
            break;
        case 2:
            n = any(ROOM);
            break;
        case 3:
            n += any(3);
            a[2] = (uint8_t)(n - 3);
            break;
        }
        /* A copy of just these bytes, so that a sanitizer sees a read past them. */
        record = malloc(n ? n : 1);
        if (!record)
            return 1;
        memcpy(record, a, n);
        for (i = 0; i <= HYL_WIRE_PLACES; i++)
            x[i] = y[i] = word();
        places = any(8) ? HYL_WIRE_PLACES : any(HYL_WIRE_PLACES + 2);
        s = second_read(record, n, x, places);
        r = hyl_wire_read(record, n, y, places);
        free(record);
        if (HYL_REFUSAL(r) != s || HYL_COUNT(r) != 0 || memcmp(x, y, sizeof x))
            return differ("read", k);
        count[1][s]++;
    }
    printf("written %lu, torn %lu, short %lu; read %lu, torn %lu, short %lu; no difference\n", count[0][0], count[0][1], count[0][20],
           count[1][0], count[1][1], count[1][20]);
    return 0;
}
