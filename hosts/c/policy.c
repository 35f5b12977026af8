/* Two policies over the engine, each with a flat memory beside it that every answered load must agree with: one that takes turns and works, and a
 * foolish one. A display looks at the state letters of both. hosts/rust/examples/policy.rs is the same program in Rust and prints the same lines for
 * the same seed. */
#include <errno.h>
#include <inttypes.h>
#include <stdbool.h>
#include <stdio.h>
#include <stdlib.h>
#include <string.h>
#include "hyaloneth.h"
#include "hyaloneth_view.h"

#define ROUNDS 3000
#define FOOLISH_RACKS 120
#define FOOLISH_STEPS 2000
/* The foolish policy hands in lists of so many steps, with room for fewer replies. */
#define LIST_STEPS 64
#define REPLIES 24

/* A damaged record may be one byte longer. */
#define STEP_ROOM (HYL_WIRE_LONGEST + 1)

/* The component where the tape writer reads. */
#define HOME 0

/* Numbers that a seed decides. */
static uint64_t dice;

static void seed_dice(uint64_t seed)
{
    dice = seed * UINT64_C(0x9e3779b97f4a7c15) | 1;
}

/* A number below `count`. */
static uint32_t draw(uint32_t count)
{
    dice ^= dice << 13;
    dice ^= dice >> 7;
    dice ^= dice << 17;
    return (uint32_t)(dice >> 32) % count;
}

/* A number mostly below `count`, now and then too large for the rack or for its field. */
static uint32_t mostly_below(uint32_t count)
{
    return draw(20) == 0 ? draw(300) : draw(count);
}

/* The record under the policy, of exactly the length it takes, so that a sanitizer sees any place past it. */
static uint8_t *rec;
static size_t rec_len;

static bool open_rack(uint32_t boards, uint32_t blocks, uint32_t tokens)
{
    uint64_t len = hyl_record_len(blocks);

    if (HYL_KIND(len) != HYL_DONE)
        return false;
    rec_len = HYL_COUNT(len);
    rec = malloc(rec_len);
    return rec != NULL && HYL_KIND(hyl_open(rec, rec_len, boards, blocks, tokens)) == HYL_DONE;
}

static void close_rack(void)
{
    free(rec);
    rec = NULL;
}

/* The figures that the policy goes by. */
static uint32_t in_flight(void)
{
    return hyl_view_in_flight(rec);
}

static uint32_t plain(uint32_t component, uint32_t block)
{
    return hyl_view_plain(rec, component, block);
}

static bool valid(uint32_t component, uint32_t block)
{
    return hyl_view_valid(rec, component, block) != 0;
}

/* A memory without components, tokens or messages: what the loads of a coherent rack give. Its counts are for the report; a bare send takes the owner
 * home without data. */
static struct {
    uint32_t words[32][8];
    unsigned loads, home_loads, stores, sends, bare_sends, wrong;
} memory;

/* The flat memory takes an accepted step. Its numbers are on the rack, since it was accepted. */
static void take(const uint8_t *step, size_t step_len, uint64_t result)
{
    uint32_t n[HYL_WIRE_PLACES];

    if (HYL_KIND(hyl_wire_read(step, step_len, n, HYL_WIRE_PLACES)) != HYL_DONE) {
        memory.wrong++;
        printf("WRONG: a torn step was accepted\n");
    } else if (n[0] == HYL_LOAD) {
        memory.loads++;
        memory.home_loads += n[HYL_COMPONENT] == HOME;
        if (HYL_KIND(result) != HYL_WORD_GIVEN || memory.words[n[HYL_BLOCK]][n[HYL_WORD]] != HYL_WORD_OF(result)) {
            memory.wrong++;
            printf("WRONG: load %" PRIu32 " block %" PRIu32 " word %" PRIu32 " gave 0x%" PRIx32 "\n", n[HYL_COMPONENT], n[HYL_BLOCK], n[HYL_WORD],
                   HYL_WORD_OF(result));
        }
    } else if (n[0] == HYL_STORE) {
        memory.stores++;
        memory.words[n[HYL_BLOCK]][n[HYL_WORD]] = n[HYL_VALUE];
    } else if (n[0] == HYL_SEND) {
        memory.sends++;
        memory.bare_sends += n[HYL_OWNER] && !n[HYL_DATA];
    }
}

/* How often the display has shown each letter. */
static struct {
    unsigned modified, owned, exclusive, shared, invalid;
} shown;

/* A board shows E: it and home must have the flat memory's words, and no other component may be valid. */
static void exclusive(uint32_t board, uint32_t block)
{
    uint32_t component, word;

    for (component = 0; component <= hyl_view_boards(rec); component++) {
        for (word = 0; word < 8; word++)
            if ((component == HOME || component == board) && hyl_view_word(rec, component, block, word) != memory.words[block][word]) {
                memory.wrong++;
                printf("WRONG: board %" PRIu32 " shows E of block %" PRIu32 ", and component %" PRIu32 " has another word %" PRIu32 "\n", board, block,
                       component, word);
            }
        if (component != board && hyl_view_valid(rec, component, block)) {
            memory.wrong++;
            printf("WRONG: board %" PRIu32 " shows E of block %" PRIu32 ", and component %" PRIu32 " is valid\n", board, block, component);
        }
    }
}

/* The display looks at a block. */
static void show(uint32_t block)
{
    uint32_t board;

    for (board = 1; board <= hyl_view_boards(rec); board++)
        switch (HYL_LETTER_OF(hyl_letter(rec, rec_len, board, block))) {
        case 'M':
            shown.modified++;
            break;
        case 'O':
            shown.owned++;
            break;
        case 'E':
            shown.exclusive++;
            exclusive(board, block);
            break;
        case 'S':
            shown.shared++;
            break;
        case 'I':
            shown.invalid++;
            break;
        default:
            memory.wrong++;
            printf("WRONG: board %" PRIu32 " shows no letter of block %" PRIu32 "\n", board, block);
            break;
        }
}

/* The policy that takes turns: its steps, and its raises refused because the board waits already, or because it is barred. */
static unsigned steps, waiting, barred;

/* Hands in the step that was written to `step` with this result. Gives the engine's result, or the writer's where it was not written. */
static uint64_t make(const uint8_t *step, uint64_t written)
{
    uint64_t result;

    steps++;
    if (HYL_KIND(written) != HYL_DONE)
        return written;
    result = hyl_step(rec, rec_len, step, HYL_COUNT(written));
    if (HYL_KIND(result) != HYL_REFUSED)
        take(step, HYL_COUNT(written), result);
    return result;
}

/* The result of a step that must be accepted. */
static uint64_t expect_accepted(uint64_t result)
{
    if (HYL_KIND(result) == HYL_REFUSED) {
        printf("a step that must be accepted was refused %" PRIu32 "\n", HYL_REFUSAL(result));
        exit(1);
    }
    return result;
}

/* Makes a step that must be accepted, and gives its result. */
static uint64_t must(const uint8_t *step, uint64_t written)
{
    return expect_accepted(make(step, written));
}

/* Raises a claim, if the board may have one now. */
static void raise_claim(uint32_t board, uint32_t block)
{
    uint8_t step[STEP_ROOM];
    uint64_t result = make(step, hyl_wire_write_raise(step, sizeof step, 0, board, block));

    if (HYL_REFUSAL(result) == HYL_WAITING)
        waiting++;
    else if (HYL_REFUSAL(result) == HYL_BARRED)
        barred++;
    else
        expect_accepted(result);
}

/* Delivers a message, any of them: the mesh keeps no order. The result says whom it served. The step is refused where nothing is
 * in flight. */
static uint64_t deliver(void)
{
    uint8_t step[STEP_ROOM];
    uint32_t count = in_flight();

    return must(step, hyl_wire_write_deliver(step, sizeof step, 0, draw(count > 0 ? count : 1)));
}

static void deliver_all(void)
{
    while (in_flight() > 0)
        deliver();
}

/* Delivers messages until one of this block arrives, and gives the component that it served. */
static uint32_t deliver_block(uint32_t block)
{
    uint64_t result;

    do
        result = deliver();
    while (HYL_KIND(result) != HYL_SERVED || HYL_BLOCK_OF(result) != block);
    return HYL_COMPONENT_OF(result);
}

/* Brings all tokens of a block to its active board: what is in flight arrives first, then every other holder forwards. */
static void fill(uint32_t board, uint32_t block)
{
    uint8_t step[STEP_ROOM];
    uint32_t component;

    deliver_all();
    for (component = 0; component <= hyl_view_boards(rec); component++)
        if (component != board && hyl_view_held(rec, component, block) > 0)
            must(step, hyl_wire_write_forward(step, sizeof step, 0, component, block));
    deliver_all();
}

/* A board that has the owner gives back all that it holds of a block. Home has the words already where the owner is clean, so it goes bare. */
static void give_back(uint32_t board, uint32_t block)
{
    uint8_t step[STEP_ROOM];
    bool data = hyl_view_dirty(rec, board, block) != 0;

    must(step, hyl_wire_write_send(step, sizeof step, 0, board, block, HOME, plain(board, block), 1, data));
}

/* Some boards claim a block; each gets it whole, stores or only reads, and lowers. Where the last one only read, it gives the block back. */
static void claim_turn(uint32_t block)
{
    uint8_t step[STEP_ROOM];
    uint32_t boards = hyl_view_boards(rec), board, only_read = 0, stores, word, times;

    for (times = draw(3) + 1; times > 0; times--)
        raise_claim(1 + draw(boards), block);
    while ((board = hyl_view_active(rec, block)) != 0) {
        fill(board, block);
        show(block);
        stores = draw(4);
        for (times = stores; times > 0; times--) {
            word = draw(8);
            must(step, hyl_wire_write_store(step, sizeof step, 0, board, block, word, draw(1000000007)));
        }
        must(step, hyl_wire_write_load(step, sizeof step, 0, board, block, draw(8)));
        /* A latecomer may displace the active board, which lowers all the same. */
        if (draw(4) == 0)
            raise_claim(1 + draw(boards), block);
        must(step, hyl_wire_write_lower(step, sizeof step, 0, board, block));
        only_read = stores == 0 ? board : 0;
    }
    if (only_read != 0)
        give_back(only_read, block);
}

/* The component other than the reader, with data, that has the most plain tokens; UINT32_MAX for none. */
static uint32_t source(uint32_t reader, uint32_t block)
{
    uint32_t component, best = UINT32_MAX;

    for (component = 0; component <= hyl_view_boards(rec); component++)
        if (component != reader && valid(component, block) && (best == UINT32_MAX || plain(component, block) > plain(best, block)))
            best = component;
    return best;
}

/* A board, or the tape writer at home, reads an unclaimed block. Every token here travels with the words, or bare to home, which has them; so who is
 * served with the block can read it. Messages that the reader need not wait for stay in flight. A board that has the owner gives the block back
 * afterwards, unless many messages are in flight. */
static void read_turn(uint32_t reader, uint32_t block)
{
    uint8_t step[STEP_ROOM];
    uint32_t from, times;

    if (!valid(reader, block)) {
        from = source(reader, block);
        /* Without a source all tokens of the block are in flight. */
        if (from == UINT32_MAX)
            from = deliver_block(block);
        if (from != reader) {
            bool has_plain = plain(from, block) > 0;
            must(step, hyl_wire_write_send(step, sizeof step, 0, from, block, reader, has_plain, !has_plain, 1));
            /* Some readers do not wait: their message stays in flight. */
            if (in_flight() < 16 && draw(3) == 0)
                return;
            while (deliver_block(block) != reader)
                ;
        }
    }
    for (times = draw(3) + 1; times > 0; times--)
        must(step, hyl_wire_write_load(step, sizeof step, 0, reader, block, draw(8)));
    if (reader != HOME && hyl_view_owner(rec, reader, block) != 0 && in_flight() < 16)
        give_back(reader, block);
}

/* Boards and the tape writer take turns; no step but a raise is ever refused. Gives the number of wrong loads. */
static unsigned take_turns(uint64_t seed, uint32_t boards, uint32_t blocks, uint32_t tokens)
{
    int round;

    if (!open_rack(boards, blocks, tokens))
        return 1;
    memset(&memory, 0, sizeof memory);
    memset(&shown, 0, sizeof shown);
    steps = waiting = barred = 0;
    seed_dice(seed);
    for (round = 0; round < ROUNDS; round++) {
        uint32_t block = draw(blocks);
        switch (draw(3)) {
        case 0:
            claim_turn(block);
            break;
        case 1:
            read_turn(1 + draw(boards), block);
            break;
        default:
            read_turn(HOME, block);
            break;
        }
        show(block);
    }
    close_rack();
    printf("turns: boards %" PRIu32 ", blocks %" PRIu32 ", tokens %" PRIu32
           ": %u steps, %u stores, %u loads (%u at home), %u sends (%u bare); letters: %u M, %u O, %u E, %u S, %u I; raises refused: %u waiting, "
           "%u barred\n",
           boards, blocks, tokens, steps, memory.stores, memory.loads, memory.home_loads, memory.sends, memory.bare_sends, shown.modified, shown.owned,
           shown.exclusive, shown.shared, shown.invalid, waiting, barred);
    return memory.wrong;
}

/* Writes a random step's record, sometimes damaged, and gives its length; a refusal's number goes to `refused` where the numbers are no step. */
static size_t foolish_step(uint32_t boards, uint32_t blocks, uint32_t tokens, bool lazy, uint8_t step[STEP_ROOM], uint32_t *refused)
{
    uint32_t kind = draw(12), component, block, a, b, c, d, len;
    uint64_t written;

    if (lazy && (kind >= 9 || (kind >= 6 && draw(64) != 0)))
        kind = 3;
    component = mostly_below(boards + 1);
    block = mostly_below(blocks);
    switch (kind) {
    case 0:
    case 1:
        written = hyl_wire_write_load(step, STEP_ROOM, 0, component, block, mostly_below(8));
        break;
    case 2:
        a = mostly_below(8);
        b = draw(1000000007);
        written = hyl_wire_write_store(step, STEP_ROOM, 0, component, block, a, b);
        break;
    case 3:
    case 4:
    case 5:
        a = mostly_below(boards + 1);
        b = !lazy && draw(4) == 0 ? draw(tokens + 2) : draw(3);
        c = draw(2);
        d = draw(2);
        written = hyl_wire_write_send(step, STEP_ROOM, 0, component, block, a, b, c, d);
        break;
    case 6:
    case 7:
    case 8:
        a = draw(4) == 0 ? draw(300) : draw(2);
        written = hyl_wire_write_deliver(step, STEP_ROOM, 0, a);
        break;
    case 9:
        written = hyl_wire_write_raise(step, STEP_ROOM, 0, component, block);
        break;
    case 10:
        written = hyl_wire_write_lower(step, STEP_ROOM, 0, component, block);
        break;
    default:
        written = hyl_wire_write_forward(step, STEP_ROOM, 0, component, block);
        break;
    }
    *refused = HYL_REFUSAL(written);
    len = HYL_COUNT(written);
    if (len > 0 && !lazy && draw(30) == 0) {
        switch (draw(3)) {
        case 0:
            a = draw(len);
            step[a] = (uint8_t)(step[a] ^ 1u << draw(8));
            break;
        case 1:
            len = draw(len);
            break;
        default:
            step[len++] = (uint8_t)draw(256);
            break;
        }
    }
    return len;
}

/* How long the step record at the front of a list is, or the list where it ends before. */
static size_t record_len(const uint8_t *list, size_t left)
{
    size_t len;

    if (left < 3)
        return left;
    len = 3 + ((size_t)list[1] << 8 | list[2]);
    return len < left ? len : left;
}

/* How many blocks have not T tokens, or not one owner. */
static unsigned wrong_totals(void)
{
    unsigned wrong = 0;
    uint32_t block, component, i;

    for (block = 0; block < hyl_view_blocks(rec); block++) {
        uint32_t tokens = 0, owners = 0;
        for (component = 0; component <= hyl_view_boards(rec); component++) {
            tokens += hyl_view_held(rec, component, block);
            owners += hyl_view_owner(rec, component, block);
        }
        for (i = 0; i < in_flight(); i++)
            if (hyl_view_message_block(rec, i) == block) {
                tokens += hyl_view_message_plain(rec, i) + hyl_view_message_owner(rec, i);
                owners += hyl_view_message_owner(rec, i);
            }
        if (tokens != hyl_view_tokens(rec) || owners != 1) {
            wrong++;
            printf("WRONG: block %" PRIu32 " has %" PRIu32 " tokens, %" PRIu32 " owners\n", block, tokens, owners);
        }
    }
    return wrong;
}

/* Hands in random steps, sound and unsound ones, in lists. Gives the number of wrong loads. */
static unsigned be_foolish(uint64_t seed)
{
    static const char *const word[] = {
        "", "torn", "unsound", "off rack", "home", "no token", "no data", "short", "self", "claimed", "empty", "not held", "bare owner",
        "mesh full", "no message", "waiting", "barred", "not waiting", "unclaimed", "size", "short buffer",
    };
    static uint8_t list[LIST_STEPS * STEP_ROOM];
    unsigned refused[21] = {0};
    unsigned accepted = 0, loads = 0, home_loads = 0, stores = 0, sends = 0, bare_sends = 0, wrong = 0, number;
    uint32_t block;
    int rack, lists, i;

    memset(&shown, 0, sizeof shown);
    seed_dice(seed);
    for (rack = 0; rack < FOOLISH_RACKS; rack++) {
        /* A lazy rack delivers little and claims nothing, so that its mesh becomes full. */
        bool lazy = rack % 8 == 0;
        uint32_t boards = 1 + draw(4);
        uint32_t blocks = lazy ? 2 : 1 + draw(2);
        uint32_t tokens = lazy ? 64 : boards + draw(3);

        if (!open_rack(boards, blocks, tokens))
            return 1;
        memset(&memory, 0, sizeof memory);
        for (lists = 0; lists < FOOLISH_STEPS / LIST_STEPS; lists++) {
            uint64_t replies[REPLIES];
            size_t len = 0, at = 0, cut = 0, made, k;

            for (i = 0; i < LIST_STEPS; i++) {
                uint32_t refusal;
                len += foolish_step(boards, blocks, tokens, lazy, list + len, &refusal);
                if (refusal != 0)
                    refused[refusal]++;
            }
            while (at < len) {
                made = hyl_run(rec, rec_len, list, len, &at, replies, REPLIES);
                for (k = 0; k < made; k++) {
                    size_t n = record_len(list + cut, len - cut);
                    if (HYL_KIND(replies[k]) == HYL_REFUSED) {
                        refused[HYL_REFUSAL(replies[k])]++;
                    } else {
                        accepted++;
                        take(list + cut, n, replies[k]);
                    }
                    cut += n;
                }
            }
            for (block = 0; block < blocks; block++)
                show(block);
        }
        wrong += memory.wrong + wrong_totals();
        loads += memory.loads;
        home_loads += memory.home_loads;
        stores += memory.stores;
        sends += memory.sends;
        bare_sends += memory.bare_sends;
        close_rack();
    }
    printf("foolish: %d racks: %u steps accepted, of them %u stores, %u loads (%u at home), %u sends (%u bare); letters: %u M, %u O, %u E, %u S, %u I; "
           "refused:\n",
           FOOLISH_RACKS, accepted, stores, loads, home_loads, sends, bare_sends, shown.modified, shown.owned, shown.exclusive, shown.shared,
           shown.invalid);
    for (number = 1; number <= 20; number++)
        if (refused[number] > 0)
            printf("  %2u %-12s %u\n", number, word[number], refused[number]);
    return wrong;
}

int main(int argc, char **argv)
{
    static const uint32_t sizes[][3] = {{1, 1, 1}, {2, 1, 2}, {4, 6, 5}, {15, 32, 15}, {15, 4, 64}};
    uint64_t seed = 1;
    unsigned wrong = 0;
    size_t i;

    if (argc > 1) {
        char *end;
        errno = 0;
        seed = strtoull(argv[1], &end, 10);
        if (argv[1][0] < '0' || argv[1][0] > '9' || *end != '\0' || errno != 0) {
            fprintf(stderr, "usage: policy [SEED], a decimal number\n");
            return 2;
        }
    }
    for (i = 0; i < sizeof sizes / sizeof *sizes; i++)
        wrong += take_turns(seed, sizes[i][0], sizes[i][1], sizes[i][2]);
    wrong += be_foolish(seed);
    if (wrong != 0) {
        printf("%u differences\n", wrong);
        return 1;
    }
    printf("every answered load agrees with the flat memory\n");
    return 0;
}
