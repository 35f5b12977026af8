/* Records of another format in C: as earlier landings left them, with each byte of the format changed, and of random bytes. Every call refuses them with
 * HYL_UNSOUND and changes nothing, a torn step is still torn, an opening does not ask, and the view tells the number. Exits with 1 where one differs.
 * hosts/rust/tests/formats.rs is the same in Rust. */
#include <inttypes.h>
#include <stdio.h>
#include <string.h>
#include "hyaloneth.h"
#include "hyaloneth_view.h"

#define TORN UINT64_C(0x0100000000000001)
#define UNSOUND UINT64_C(0x0100000000000002)
#define FORMAT_SIZE 4
#define BUFFERS 1000
#define STEPS 7

static uint8_t rec[HYL_RECORD_LONGEST], before[HYL_RECORD_LONGEST];
static size_t rec_len;
static unsigned records, failures;
static uint64_t seed = 0x9e3779b97f4a7c15u;

/* The list that every record gets: one step of each kind, then one that ends too early. Where each ends. */
static uint8_t list[(STEPS + 1) * HYL_WIRE_LONGEST];
static size_t ends[STEPS + 1];

static uint32_t any(uint32_t below)
{
    seed ^= seed << 13;
    seed ^= seed >> 7;
    seed ^= seed << 17;
    return (uint32_t)((seed >> 16) % below);
}

static void expect(const char *of, const char *what, uint64_t got, uint64_t expected)
{
    if (got != expected) {
        failures++;
        printf("%s: %s is %#" PRIx64 ", not %#" PRIx64 "\n", of, what, got, expected);
    }
}

/* Makes the step that was written to `step` with this result. */
static uint64_t made(const uint8_t *step, uint64_t written)
{
    expect("a step", "whether it is written", HYL_KIND(written), HYL_DONE);
    return hyl_step(rec, rec_len, step, HYL_COUNT(written));
}

/* Sends the owner and two plain tokens of block 0. */
static uint64_t sent(uint32_t component, uint32_t target, uint32_t data)
{
    uint8_t step[HYL_WIRE_LONGEST];

    return made(step, hyl_wire_write_send(step, sizeof step, 0, component, 0, target, 2, 1, data));
}

static uint64_t delivered(void)
{
    uint8_t step[HYL_WIRE_LONGEST];

    return made(step, hyl_wire_write_deliver(step, sizeof step, 0, 0));
}

static uint64_t loaded(uint32_t component)
{
    uint8_t step[HYL_WIRE_LONGEST];

    return made(step, hyl_wire_write_load(step, sizeof step, 0, component, 0, 0));
}

/* Puts the step that was written to `step` with this result at the end of the list. */
static void put(unsigned i, const uint8_t *step, uint64_t written)
{
    size_t at = i > 0 ? ends[i - 1] : 0;

    expect("the list", "whether a step is written", HYL_KIND(written), HYL_DONE);
    memcpy(list + at, step, HYL_COUNT(written));
    ends[i] = at + HYL_COUNT(written);
}

static void write_list(void)
{
    uint8_t step[HYL_WIRE_LONGEST];

    put(0, step, hyl_wire_write_load(step, sizeof step, 0, 0, 0, 0));
    put(1, step, hyl_wire_write_send(step, sizeof step, 0, 1, 0, 0, 2, 1, 0));
    put(2, step, hyl_wire_write_store(step, sizeof step, 0, 1, 0, 0, 7));
    put(3, step, hyl_wire_write_deliver(step, sizeof step, 0, 0));
    put(4, step, hyl_wire_write_raise(step, sizeof step, 0, 1, 0));
    put(5, step, hyl_wire_write_lower(step, sizeof step, 0, 1, 0));
    put(6, step, hyl_wire_write_forward(step, sizeof step, 0, 0, 0));
    put(7, step, hyl_wire_write_load(step, sizeof step, 0, 1, 0, 0));
    ends[7]--;
}

/* Every call refuses the record, and nothing is changed. An opening takes its buffer. */
static void refused(const char *of)
{
    uint64_t replies[STEPS + 2];
    size_t i, at = 0, from = 0;

    records++;
    memcpy(before, rec, sizeof rec);
    for (i = 0; i < STEPS; from = ends[i++])
        expect(of, "a step", hyl_step(rec, rec_len, list + from, ends[i] - from), UNSOUND);
    expect(of, "a step that ends too early", hyl_step(rec, rec_len, list + from, ends[STEPS] - from), TORN);
    expect(of, "a step of no bytes", hyl_step(rec, rec_len, list, 0), TORN);
    expect(of, "the count of a list", hyl_run(rec, rec_len, list, ends[STEPS], &at, replies, STEPS + 2), STEPS + 1);
    for (i = 0; i < STEPS; i++)
        expect(of, "a step of a list", replies[i], UNSOUND);
    expect(of, "the last of a list", replies[STEPS], TORN);
    expect(of, "a letter", hyl_letter(rec, rec_len, 1, 0), UNSOUND);
    expect(of, "a letter off the rack", hyl_letter(rec, rec_len, 16, 32), UNSOUND);
    expect(of, "whether it was changed", memcmp(before, rec, sizeof rec) != 0, 0);
    expect(of, "an opening", hyl_open(before, sizeof before, 2, 1, 3), 0);
    expect(of, "the format of an opening", hyl_view_format(before), HYL_RECORD_FORMAT);
    expect(of, "a letter after an opening", (unsigned char)HYL_LETTER_OF(hyl_letter(before, sizeof before, 1, 0)), 'I');
}

/* Writes the format into the record, whatever else it holds. */
static void put_format(void)
{
    static const uint8_t format[FORMAT_SIZE] = {'H', 'Y', 'L', HYL_RECORD_FORMAT};

    memcpy(rec + HYL_VIEW_FORMAT_AT, format, FORMAT_SIZE);
}

/* Nothing but its format makes the record unsound. */
static void sound_with_format(const char *of)
{
    put_format();
    expect(of, "the kind of a letter, with the format", HYL_KIND(hyl_letter(rec, rec_len, 1, 0)), HYL_LETTER_GIVEN);
}

/* ---- Records of 2 boards, 1 block and 3 tokens, as earlier landings left them in a buffer filled with a byte. */

enum state { FRESH, STORED, SENT, STATES };

/* Today's record: fresh; then board 1 has the block and stored 42; then the block, its owner dirty, is on its way to board 2. */
static void open_rack(enum state state, uint8_t fill)
{
    uint8_t step[HYL_WIRE_LONGEST];

    memset(rec, fill, sizeof rec);
    rec_len = sizeof rec;
    expect("an opening", "its result", hyl_open(rec, rec_len, 2, 1, 3), 0);
    expect("an opening", "its format", hyl_view_format(rec), HYL_RECORD_FORMAT);
    if (state >= STORED) {
        expect("a send", "its result", sent(0, 1, 1), 0);
        expect("a deliver", "its kind", HYL_KIND(delivered()), HYL_SERVED);
        expect("a store", "its result", made(step, hyl_wire_write_store(step, sizeof step, 0, 1, 0, 0, 42)), 0);
    }
    if (state >= SENT)
        expect("a send", "its result", sent(1, 2, 1), 0);
}

/* The tenth landing to the twelfth wrote no format. */
static void without_format(uint8_t fill)
{
    memset(rec + HYL_VIEW_FORMAT_AT, fill, FORMAT_SIZE);
}

/* The sixth landing to the ninth wrote no marks either: a block had room in their lane, a message a byte that is always 0. */
static void without_marks(uint8_t fill)
{
    uint32_t i;

    without_format(fill);
    memset(rec + hyl_view_block_at(0) + HYL_VIEW_DIRTY_AT, fill, 16);
    for (i = 0; i < hyl_view_in_flight(rec); i++)
        rec[hyl_view_message_at(i) + HYL_VIEW_MESSAGE_DIRTY_AT] = 0;
}

/* Up to the fifth landing the header had four bytes, a message 38 (six figures, the words) and a block 592: cells of 35 bytes (plain, owner, valid, the
 * words) up to component N, and at 560 the waiting set and the barring sets of the boards. Nothing wrote what stands between. */
static void by_cells(uint8_t fill)
{
    const uint8_t *today = before + hyl_view_block_at(0);
    uint8_t *block = rec + 2436;
    uint32_t i, c, boards = hyl_view_boards(rec);

    memcpy(before, rec, sizeof rec);
    memset(rec + 4, fill, sizeof rec - 4);
    for (i = 0; i < 64; i++) {
        const uint8_t *message = before + hyl_view_message_at(i);

        memcpy(rec + 4 + 38 * i, message, 6);
        memcpy(rec + 4 + 38 * i + 6, message + HYL_VIEW_MESSAGE_WORDS_AT, HYL_VIEW_WORDS_SIZE);
    }
    for (c = 0; c <= boards; c++) {
        uint8_t *cell = block + 35 * c;

        cell[0] = today[HYL_VIEW_PLAIN_AT + c];
        cell[1] = today[HYL_VIEW_OWNER_AT + c];
        cell[2] = today[HYL_VIEW_VALID_AT + c];
        memcpy(cell + 3, today + HYL_VIEW_WORDS_AT + HYL_VIEW_WORDS_SIZE * c, HYL_VIEW_WORDS_SIZE);
    }
    memcpy(block + 560, today + HYL_VIEW_WAITING_AT, HYL_VIEW_SET_SIZE);
    memcpy(block + 562, today + HYL_VIEW_BARRING_AT + HYL_VIEW_SET_SIZE, HYL_VIEW_SET_SIZE * boards);
}

static void earlier_landings(void)
{
    static const uint8_t fills[] = {0, 1, 0x48, 0xff};
    unsigned i, state;

    for (i = 0; i < sizeof fills; i++)
        for (state = FRESH; state < STATES; state++) {
            open_rack((enum state)state, fills[i]);
            by_cells(fills[i]);
            expect("a record of the fifth landing", "its format", hyl_view_format(rec), 0);
            refused("a record of the fifth landing");

            open_rack((enum state)state, fills[i]);
            without_marks(fills[i]);
            expect("a record of the sixth to the ninth landing", "its format", hyl_view_format(rec), 0);
            refused("a record of the sixth to the ninth landing");
            /* In a cleared buffer no mark is wrong by its form. */
            if (fills[i] == 0)
                sound_with_format("a record of the sixth to the ninth landing");

            open_rack((enum state)state, fills[i]);
            without_format(fills[i]);
            expect("a record of the tenth to the twelfth landing", "its format", hyl_view_format(rec), 0);
            refused("a record of the tenth to the twelfth landing");
            sound_with_format("a record of the tenth to the twelfth landing");
        }
}

/* Board 1 stored 42. In a record of the ninth landing in a cleared buffer its owner would pass for clean and go home bare, and home would give 0. */
static void stale_word(void)
{
    open_rack(STORED, 0);
    without_marks(0);
    expect("42", "a bare send home", sent(1, 0, 0), UNSOUND);
    expect("42", "a deliver", delivered(), UNSOUND);
    expect("42", "a load at home", loaded(0), UNSOUND);
    put_format();
    expect("42 with the format", "a bare send home", sent(1, 0, 0), 0);
    expect("42 with the format", "the kind of a deliver", HYL_KIND(delivered()), HYL_SERVED);
    expect("42 with the format", "a load at home", loaded(0), UINT64_C(0x0200000000000000));
}

/* ---- Each byte of the format, changed to each other value. */
static void changed_bytes(void)
{
    unsigned at, value;

    open_rack(STORED, 0xa5);
    for (at = HYL_VIEW_FORMAT_AT; at < HYL_VIEW_FORMAT_AT + FORMAT_SIZE; at++) {
        uint8_t kept = rec[at];

        for (value = 0; value < 256; value++)
            if (value != kept) {
                rec[at] = (uint8_t)value;
                expect("a changed format", "its number", hyl_view_format(rec), at == HYL_VIEW_FORMAT_AT + 3 ? value : 0);
                refused("a changed format");
            }
        rec[at] = kept;
    }
    expect("the format as it was", "a load", loaded(1), UINT64_C(0x020000000000002A));
}

/* ---- Any bytes, with sizes, tokens and sets of a sound record. */

/* A rack in a buffer of any bytes. Its tokens move and its boards wait, as far as the engine lets them; its words are any. */
static void any_rack(void)
{
    uint32_t boards = 1 + any(15), blocks = 1 + any(32), tokens = boards + any(65 - boards), turns = any(40), block;
    uint8_t step[HYL_WIRE_LONGEST];
    size_t k;

    for (k = 0; k < sizeof rec; k++)
        rec[k] = (uint8_t)any(256);
    rec_len = HYL_COUNT(hyl_record_len(blocks));
    expect("any bytes", "an opening", hyl_open(rec, rec_len, boards, blocks, tokens), 0);
    for (; turns > 0; turns--) {
        made(step, hyl_wire_write_raise(step, sizeof step, 0, 1 + any(boards), any(blocks)));
        made(step, hyl_wire_write_forward(step, sizeof step, 0, 0, any(blocks)));
        made(step, hyl_wire_write_send(step, sizeof step, 0, 0, any(blocks), 1 + any(boards), any(3), any(2), 1));
        made(step, hyl_wire_write_deliver(step, sizeof step, 0, any(3)));
    }
    for (block = 0; block < blocks; block++)
        for (k = hyl_view_block_at(block) + HYL_VIEW_WORDS_AT; k < hyl_view_block_at(block + 1); k++)
            rec[k] = (uint8_t)any(256);
}

static void any_bytes(void)
{
    unsigned i, k;

    for (i = 0; i < BUFFERS; i++) {
        any_rack();
        do
            for (k = 0; k < FORMAT_SIZE; k++)
                rec[HYL_VIEW_FORMAT_AT + k] = (uint8_t)any(256);
        while (hyl_view_format(rec) == HYL_RECORD_FORMAT);
        refused("any bytes");
        sound_with_format("any bytes");
    }
}

int main(void)
{
    expect("the headers", "their number", HYL_VIEW_FORMAT, HYL_RECORD_FORMAT);
    write_list();
    earlier_landings();
    stale_word();
    changed_bytes();
    any_bytes();
    if (failures)
        return 1;
    printf("%u records of another format are refused with 2\n", records);
    return 0;
}
