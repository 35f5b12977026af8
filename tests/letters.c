/* The state letter in C: the examples of document 02's No. 4 as the engine packs them, and what a caller's switch makes of each letter. Exits with 1
 * where one differs. */
#include <inttypes.h>
#include <stdio.h>
#include <string.h>
#include "hyaloneth.h"

/* The letters and the refusals as the engine packs them. */
#define M UINT64_C(0x030000000000004D)
#define O UINT64_C(0x030000000000004F)
#define E UINT64_C(0x0300000000000045)
#define S UINT64_C(0x0300000000000053)
#define I UINT64_C(0x0300000000000049)
#define UNSOUND UINT64_C(0x0100000000000002)
#define OFF_RACK UINT64_C(0x0100000000000003)
#define AT_HOME UINT64_C(0x0100000000000004)

static uint8_t rec[HYL_RECORD_LONGEST];
static size_t rec_len;
static uint32_t tokens;
static unsigned letters, failures;

static void expect(const char *example, const char *what, uint64_t got, uint64_t expected)
{
    if (got != expected) {
        failures++;
        printf("%s: %s is %#018" PRIx64 ", not %#018" PRIx64 "\n", example, what, got, expected);
    }
}

static void open_rack(uint32_t n, uint32_t b, uint32_t t)
{
    tokens = t;
    rec_len = HYL_COUNT(hyl_record_len(b));
    expect("an opening", "its result", hyl_open(rec, rec_len, n, b, t), 0);
}

/* Hands in the step that was written to `step` with this result. */
static uint64_t make(const uint8_t *step, uint64_t written)
{
    return hyl_step(rec, rec_len, step, HYL_COUNT(written));
}

static uint64_t sent(uint32_t component, uint32_t target, uint32_t plain, uint32_t owner, uint32_t data)
{
    uint8_t step[HYL_WIRE_LONGEST];

    return make(step, hyl_wire_write_send(step, sizeof step, 0, component, 0, target, plain, owner, data));
}

static uint64_t delivered(void)
{
    uint8_t step[HYL_WIRE_LONGEST];

    return make(step, hyl_wire_write_deliver(step, sizeof step, 0, 0));
}

static uint64_t stored(uint32_t board, uint32_t word, uint32_t value)
{
    uint8_t step[HYL_WIRE_LONGEST];

    return make(step, hyl_wire_write_store(step, sizeof step, 0, board, 0, word, value));
}

/* A send that is delivered at once. */
static void move(uint32_t component, uint32_t target, uint32_t plain, uint32_t owner, uint32_t data)
{
    expect("a send", "its result", sent(component, target, plain, owner, data), 0);
    expect("a deliver", "its result", delivered(), (uint64_t)HYL_SERVED << 56 | (uint64_t)target << 48);
}

static void move_all(uint32_t component, uint32_t target)
{
    move(component, target, tokens - 1, 1, 1);
}

static void store(uint32_t board, uint32_t word, uint32_t value)
{
    expect("a store", "its result", stored(board, word, value), 0);
}

static void claim(uint32_t kind, uint32_t component)
{
    const uint32_t n[HYL_WIRE_PLACES] = {kind, component};
    uint8_t step[HYL_WIRE_LONGEST];

    expect("a claim", "its result", make(step, hyl_wire_write(n, HYL_WIRE_PLACES, step, sizeof step, 0)), 0);
}

/* What a caller makes of a letter: may the board store, and may it give the whole block home bare? */
static void rights(char letter, int *may_store, int *may_go_bare)
{
    *may_store = *may_go_bare = 0;
    switch (letter) {
    case 'M':
        *may_store = 1;
        break;
    case 'E':
        *may_store = *may_go_bare = 1;
        break;
    case 'O':
    case 'S':
    case 'I':
        break;
    default:
        failures++;
        printf("a switch has no case for %#x\n", (unsigned)(unsigned char)letter);
    }
}

/* A board shows this letter of block 0, and what the caller makes of it holds, which is tried on the record and taken back. Not for a claimed block,
 * of which nothing is sent. */
static void shows(const char *example, uint32_t board, uint64_t packed)
{
    static uint8_t before[HYL_RECORD_LONGEST];
    uint64_t result = hyl_letter(rec, rec_len, board, 0);
    int may_store, may_go_bare;

    letters++;
    expect(example, "the letter", result, packed);
    rights(HYL_LETTER_OF(result), &may_store, &may_go_bare);
    memcpy(before, rec, rec_len);
    expect(example, "a store", HYL_REFUSAL(stored(board, 0, 9)), may_store ? 0 : HYL_SHORT);
    expect(example, "the letter after a store", hyl_letter(rec, rec_len, board, 0), may_store ? M : packed);
    memcpy(rec, before, rec_len);
    if (may_store) {
        expect(example, "a bare send", HYL_REFUSAL(sent(board, 0, tokens - 1, 1, 0)), may_go_bare ? 0 : HYL_BARE_OWNER);
        memcpy(rec, before, rec_len);
    }
}

/* Both boards of a rack. */
static void both_show(const char *example, uint64_t first, uint64_t second)
{
    shows(example, 1, first);
    shows(example, 2, second);
}

/* What is refused whatever the boards hold, on a rack of N = 2 and B = 1. A record one byte too short is 2, before 3 and 4. */
static void refused(const char *example)
{
    static const struct {
        uint32_t component, block;
        uint64_t packed;
    } cases[] = {{0, 0, AT_HOME}, {3, 0, OFF_RACK}, {1, 1, OFF_RACK}, {0, 1, OFF_RACK}, {258, 0, OFF_RACK}, {1, 256, OFF_RACK}, {256, 0, OFF_RACK}};
    size_t i;

    for (i = 0; i < sizeof cases / sizeof *cases; i++) {
        expect(example, "a letter off the rack or at home", hyl_letter(rec, rec_len, cases[i].component, cases[i].block), cases[i].packed);
        expect(example, "a letter of a short record", hyl_letter(rec, rec_len - 1, cases[i].component, cases[i].block), UNSOUND);
    }
    expect(example, "a letter of a short record", hyl_letter(rec, rec_len - 1, 1, 0), UNSOUND);
}

int main(void)
{
    uint32_t dirty;

    open_rack(2, 1, 3);
    both_show("fresh", I, I);
    refused("fresh");
    move_all(0, 1);
    both_show("board 1 has all", E, I);
    refused("board 1 has all");
    store(1, 0, 1);
    both_show("board 1 stored", M, I);
    refused("board 1 stored");
    move_all(1, 0);
    both_show("all came home", I, I);
    move_all(0, 1);
    both_show("all came back", E, I);
    move(1, 2, 1, 0, 1);
    both_show("board 1 has a clean owner and two tokens", O, S);
    move(2, 1, 1, 0, 0);
    both_show("the third token came back", E, I);
    store(1, 0, 1);
    both_show("board 1 stored the value that was there", M, I);
    move_all(1, 2);
    both_show("a dirty owner at the next board", I, M);
    move_all(2, 0);
    move_all(0, 2);
    both_show("clean from home", I, E);
    move(2, 0, 2, 1, 0);
    both_show("home got all bare", I, I);
    move_all(0, 1);
    both_show("all came back from home", E, I);

    store(1, 0, 1);
    move(1, 2, 1, 0, 1);
    both_show("board 1 has a dirty owner and two tokens", O, S);

    open_rack(2, 1, 3);
    move(0, 1, 1, 0, 0);
    both_show("a token without data", I, I);

    for (dirty = 0; dirty < 2; dirty++) {
        open_rack(2, 1, 3);
        move_all(0, 1);
        if (dirty)
            store(1, 0, 1);
        claim(HYL_RAISE, 2);
        claim(HYL_FORWARD, 1);
        expect("a forward", "its delivery", delivered(), UINT64_C(0x0402000000000000));
        expect("a forward", "the letter", hyl_letter(rec, rec_len, 2, 0), dirty ? M : E);
        claim(HYL_LOWER, 2);
        both_show(dirty ? "a dirty block was forwarded" : "a clean block was forwarded", I, dirty ? M : E);
    }

    open_rack(1, 1, 1);
    shows("one token, fresh", 1, I);
    move_all(0, 1);
    shows("one token, at board 1", 1, E);
    store(1, 7, 0);
    shows("one token, stored", 1, M);

    if (failures == 0)
        printf("%u letters as the engine packs them, and what follows from each\n", letters);
    return failures != 0;
}
