/* Holds the accessors of both headers to their values, and to a single evaluation of their argument. Needs no archive. Exits with 1 where one
 * differs. */
#include <inttypes.h>
#include <stdio.h>
#include "hyaloneth.h"

static unsigned calls;
static uint64_t result;

static uint64_t next(void)
{
    calls++;
    return result;
}

static int failures;

/* An accessor gave `got` after so many evaluations; it must be `expected` after one. */
static void expect(const char *accessor, uint64_t got, uint64_t expected)
{
    if (got != expected || calls != 1) {
        failures++;
        printf("%s of %#" PRIx64 " is %#" PRIx64 ", not %#" PRIx64 ", after %u evaluations\n", accessor, result, got, expected, calls);
    }
    calls = 0;
}

int main(void)
{
    static const unsigned kinds[] = {HYL_DONE, HYL_REFUSED, HYL_WORD_GIVEN, HYL_LETTER_GIVEN, HYL_SERVED, 5, 255};
    static const uint32_t numbers[] = {0, 1, 20, 'M', 0x80000000u, 0xffffffffu};
    /* Delivers as the engine packs them: the number, the component, the block. */
    static const struct {
        uint64_t packed;
        uint32_t component, block;
    } served[] = {
        {UINT64_C(0x0401000000000000), 1, 0},
        {UINT64_C(0x0403000A00000000), 3, 10},
        {UINT64_C(0x040F001F00000000), 15, 31},
        {UINT64_C(0x0400000000000000), 0, 0},
    };
    /* State letters as the engine packs them. */
    static const struct {
        uint64_t packed;
        char letter;
    } lettered[] = {
        {UINT64_C(0x030000000000004D), 'M'}, {UINT64_C(0x030000000000004F), 'O'}, {UINT64_C(0x0300000000000045), 'E'},
        {UINT64_C(0x0300000000000053), 'S'}, {UINT64_C(0x0300000000000049), 'I'},
    };
    unsigned k, i;

    for (k = 0; k < sizeof kinds / sizeof *kinds; k++)
        for (i = 0; i < sizeof numbers / sizeof *numbers; i++) {
            unsigned kind = kinds[k];
            uint32_t number = numbers[i];
            /* A component and a block, which no kind but HYL_SERVED has. */
            result = (uint64_t)kind << 56 | UINT64_C(0xabcdef) << 32 | number;
            expect("HYL_KIND", HYL_KIND(next()), kind);
            expect("HYL_REFUSAL", HYL_REFUSAL(next()), kind == HYL_REFUSED ? number : 0);
            expect("HYL_COUNT", HYL_COUNT(next()), kind == HYL_DONE ? number : 0);
            expect("HYL_WORD_OF", HYL_WORD_OF(next()), kind == HYL_WORD_GIVEN ? number : 0);
            expect("HYL_LETTER_OF", (unsigned char)HYL_LETTER_OF(next()), kind == HYL_LETTER_GIVEN ? number & 0xff : 0);
            expect("HYL_COMPONENT_OF", HYL_COMPONENT_OF(next()), kind == HYL_SERVED ? 0xab : 0);
            expect("HYL_BLOCK_OF", HYL_BLOCK_OF(next()), kind == HYL_SERVED ? 0xcdef : 0);
        }
    for (i = 0; i < sizeof served / sizeof *served; i++) {
        result = served[i].packed;
        expect("HYL_KIND", HYL_KIND(next()), HYL_SERVED);
        expect("HYL_COMPONENT_OF", HYL_COMPONENT_OF(next()), served[i].component);
        expect("HYL_BLOCK_OF", HYL_BLOCK_OF(next()), served[i].block);
    }
    for (i = 0; i < sizeof lettered / sizeof *lettered; i++) {
        result = lettered[i].packed;
        expect("HYL_KIND", HYL_KIND(next()), HYL_LETTER_GIVEN);
        expect("HYL_LETTER_OF", (unsigned char)HYL_LETTER_OF(next()), (unsigned char)lettered[i].letter);
    }
    return failures != 0;
}
