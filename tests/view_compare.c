/* Compares the view of include/hyaloneth_view.h with a second account of the rack: plain arrays that change by document 01's rules at each step that
 * the engine accepts, and know no bytes. Every figure is compared after every accepted step, so that a wrong offset is found; so are whom a deliver
 * served, what a load gives, at home too, what a send of the owner without data gives, and the letters of the step's block. Exits with 1 at the first
 * difference.
 *
 * Argument, if any: a file. Some of the records go there, one after the other, and their figures and letters to the standard output, in the form that
 * hosts/rust/examples/figures.rs prints them in. */
#include <inttypes.h>
#include <stdio.h>
#include <stdlib.h>
#include <string.h>
#include "hyaloneth.h"
#include "hyaloneth_view.h"

#define ROUNDS 2000
/* One record is written for so many accepted steps. */
#define WRITTEN 150

static uint64_t seed = 0x9e3779b97f4a7c15u;

static uint32_t any(uint32_t below)
{
    seed ^= seed << 13;
    seed ^= seed >> 7;
    seed ^= seed << 17;
    return (uint32_t)((seed >> 16) % below);
}

static uint32_t any_word(void)
{
    return any(0x10000) << 16 | any(0x10000);
}

/* The rack as document 01 tells it, with the owner's mark of document 02's No. 2: dirty is 1 for a dirty owner, 0 for a clean one and for none. */
struct cell {
    uint32_t plain, owner, dirty, valid, words[8];
};

struct message {
    uint32_t sender, target, block, plain, owner, dirty, data, words[8];
};

static struct {
    uint32_t boards, blocks, tokens, in_flight;
    struct cell cell[32][16];
    struct message mesh[64];
    uint32_t waiting[32], barring[32][16];
} rack;

static uint8_t *rec;
static size_t rec_len;
static FILE *records;
static unsigned long accepted, kinds[8], figures, fullest;
/* Loads at home by their refusal, 0 where they are answered; and how many gave a word that is not 0. */
static unsigned long home_loads[HYL_NO_DATA + 1], home_words;
/* Sends of the owner without data, by the owner's mark and by whether the target is a board. Only those of a clean owner to home are accepted. */
static unsigned long bare_sends[2][2];
/* How often each letter was shown, in the order of LETTERS. */
#define LETTERS "MOESI"
static unsigned long letters[sizeof LETTERS - 1];

static uint32_t active(uint32_t block)
{
    uint32_t board;

    for (board = 1; board <= rack.boards; board++)
        if (rack.waiting[block] >> board & 1)
            return board;
    return 0;
}

/* The rules: what an accepted step changes. */
static void send(uint32_t from, uint32_t block, uint32_t target, uint32_t plain, uint32_t owner, uint32_t data)
{
    struct cell *cell = &rack.cell[block][from];
    struct message *message = &rack.mesh[rack.in_flight++];

    message->sender = from;
    message->target = target;
    message->block = block;
    message->plain = plain;
    message->owner = owner;
    message->dirty = owner ? cell->dirty : 0;
    message->data = data;
    memset(message->words, 0, sizeof message->words);
    if (data)
        memcpy(message->words, cell->words, sizeof cell->words);
    cell->plain -= plain;
    cell->owner -= owner;
    cell->dirty -= message->dirty;
    if (cell->plain + cell->owner == 0)
        cell->valid = 0;
}

static void deliver(uint32_t position)
{
    struct message message = rack.mesh[position];
    struct cell *cell = &rack.cell[message.block][message.target];

    rack.in_flight--;
    memmove(&rack.mesh[position], &rack.mesh[position + 1], (rack.in_flight - position) * sizeof message);
    cell->plain += message.plain;
    cell->owner += message.owner;
    /* The owner becomes clean at home. There it brings the valid mark also without data, and the words stay. */
    if (message.target > 0)
        cell->dirty += message.dirty;
    if (message.data || (message.target == 0 && message.owner))
        cell->valid = 1;
    if (message.data)
        memcpy(cell->words, message.words, sizeof cell->words);
}

static void lower(uint32_t board, uint32_t block)
{
    uint32_t i;

    rack.waiting[block] &= ~(1u << board);
    for (i = 1; i <= rack.boards; i++)
        rack.barring[block][i] &= ~(1u << board);
    rack.barring[block][board] = rack.waiting[block];
}

static void apply(const uint32_t n[HYL_WIRE_PLACES])
{
    uint32_t component = n[HYL_COMPONENT], block = n[HYL_BLOCK];
    const struct cell *cell = &rack.cell[block][component];

    switch (n[0]) {
    case HYL_STORE:
        rack.cell[block][component].words[n[HYL_WORD]] = n[HYL_VALUE];
        rack.cell[block][component].dirty = 1;
        break;
    case HYL_SEND:
        send(component, block, n[HYL_TARGET], n[HYL_PLAIN], n[HYL_OWNER], n[HYL_DATA]);
        break;
    case HYL_DELIVER:
        deliver(n[HYL_POSITION]);
        break;
    case HYL_RAISE:
        rack.waiting[block] |= 1u << component;
        break;
    case HYL_LOWER:
        lower(component, block);
        break;
    case HYL_FORWARD:
        send(component, block, active(block), cell->plain, cell->owner, cell->valid);
        break;
    }
}

static void same(const char *figure, uint32_t seen, uint32_t told)
{
    figures++;
    if (seen != told) {
        printf("view: %s is %" PRIu32 ", not %" PRIu32 ", after %lu steps\n", figure, seen, told, accepted);
        exit(1);
    }
}

/* Every figure of the view is the rack's. */
static void compare(void)
{
    uint32_t i, block, c, w;

    same("the format", hyl_view_format(rec), HYL_RECORD_FORMAT);
    same("N", hyl_view_boards(rec), rack.boards);
    same("B", hyl_view_blocks(rec), rack.blocks);
    same("T", hyl_view_tokens(rec), rack.tokens);
    same("the count in flight", hyl_view_in_flight(rec), rack.in_flight);
    same("the record's length", (uint32_t)hyl_view_record_len(rec), (uint32_t)rec_len);
    for (i = 0; i < rack.in_flight; i++) {
        const struct message *message = &rack.mesh[i];
        same("a message's sender", hyl_view_message_sender(rec, i), message->sender);
        same("a message's target", hyl_view_message_target(rec, i), message->target);
        same("a message's block", hyl_view_message_block(rec, i), message->block);
        same("a message's plain count", hyl_view_message_plain(rec, i), message->plain);
        same("a message's owner", hyl_view_message_owner(rec, i), message->owner);
        same("a message's dirty mark", hyl_view_message_dirty(rec, i), message->dirty);
        same("a message's data", hyl_view_message_data(rec, i), message->data);
        for (w = 0; w < 8; w++)
            same("a message's word", hyl_view_message_word(rec, i, w), message->words[w]);
    }
    for (block = 0; block < rack.blocks; block++) {
        same("a waiting set", hyl_view_waiting(rec, block), rack.waiting[block]);
        same("an active board", hyl_view_active(rec, block), active(block));
        for (c = 0; c <= rack.boards; c++) {
            const struct cell *cell = &rack.cell[block][c];
            same("a plain count", hyl_view_plain(rec, c, block), cell->plain);
            same("an owner", hyl_view_owner(rec, c, block), cell->owner);
            same("a dirty mark", hyl_view_dirty(rec, c, block), cell->dirty);
            same("the tokens held", hyl_view_held(rec, c, block), cell->plain + cell->owner);
            same("a valid mark", hyl_view_valid(rec, c, block), cell->valid);
            if (c > 0)
                same("a barring set", hyl_view_barring(rec, c, block), rack.barring[block][c]);
            for (w = 0; w < 8; w++)
                same("a word", hyl_view_word(rec, c, block, w), cell->words[w]);
        }
        /* The header says this of components above N. */
        for (; c < 16; c++)
            same("a figure above N",
                 hyl_view_held(rec, c, block) | hyl_view_dirty(rec, c, block) | hyl_view_valid(rec, c, block) | hyl_view_barring(rec, c, block), 0);
    }
}

/* The letter of a board by document 01's rule and document 02's No. 4. */
static char letter_of(const struct cell *cell)
{
    if (cell->plain + cell->owner == rack.tokens)
        return cell->dirty ? 'M' : 'E';
    if (cell->owner)
        return 'O';
    return cell->valid ? 'S' : 'I';
}

/* Every board's letter of a block is the rack's. Home has none. */
static void compare_letters(uint32_t block)
{
    uint32_t c;

    same("the refusal of a letter at home", HYL_REFUSAL(hyl_letter(rec, rec_len, 0, block)), HYL_HOME);
    for (c = 1; c <= rack.boards; c++) {
        uint64_t result = hyl_letter(rec, rec_len, c, block);
        char letter = letter_of(&rack.cell[block][c]);

        same("the kind of a letter", HYL_KIND(result), HYL_LETTER_GIVEN);
        same("a letter", (unsigned char)HYL_LETTER_OF(result), (unsigned char)letter);
        letters[strchr(LETTERS, letter) - LETTERS]++;
    }
}

/* Writes the record to the file, and prints its figures by the view. */
static void write_record(void)
{
    uint32_t boards = hyl_view_boards(rec), block, c, i, w;

    if (fwrite(rec, 1, rec_len, records) != rec_len) {
        perror("view");
        exit(1);
    }
    printf("record %" PRIu32 " %" PRIu32 " %" PRIu32 " %" PRIu32 " %" PRIu32 " %zu\n", hyl_view_format(rec), boards, hyl_view_blocks(rec),
           hyl_view_tokens(rec), hyl_view_in_flight(rec), hyl_view_record_len(rec));
    for (i = 0; i < hyl_view_in_flight(rec); i++) {
        printf("message %" PRIu32 " %" PRIu32 " %" PRIu32 " %" PRIu32 " %" PRIu32 " %" PRIu32 " %" PRIu32, hyl_view_message_sender(rec, i),
               hyl_view_message_target(rec, i), hyl_view_message_block(rec, i), hyl_view_message_plain(rec, i), hyl_view_message_owner(rec, i),
               hyl_view_message_dirty(rec, i), hyl_view_message_data(rec, i));
        for (w = 0; w < 8; w++)
            printf(" %08" PRIx32, hyl_view_message_word(rec, i, w));
        printf("\n");
    }
    for (block = 0; block < hyl_view_blocks(rec); block++) {
        printf("block %" PRIu32 " %04" PRIx32 " %" PRIu32 "\n", block, hyl_view_waiting(rec, block), hyl_view_active(rec, block));
        for (c = 0; c <= boards; c++) {
            printf("cell %" PRIu32 " %" PRIu32 " %" PRIu32 " %" PRIu32 " %" PRIu32, hyl_view_plain(rec, c, block), hyl_view_owner(rec, c, block),
                   hyl_view_dirty(rec, c, block), hyl_view_held(rec, c, block), hyl_view_valid(rec, c, block));
            for (w = 0; w < 8; w++)
                printf(" %08" PRIx32, hyl_view_word(rec, c, block, w));
            if (c > 0)
                printf(" %04" PRIx32 " %c", hyl_view_barring(rec, c, block), HYL_LETTER_OF(hyl_letter(rec, rec_len, c, block)));
            printf("\n");
        }
    }
}

/* The kind of answer that a step gives where it is accepted. */
static uint32_t answer(uint32_t kind)
{
    switch (kind) {
    case HYL_LOAD:
        return HYL_WORD_GIVEN;
    case HYL_DELIVER:
        return HYL_SERVED;
    default:
        return HYL_DONE;
    }
}

/* Hands in the step of a kind and its numbers, and gives its result; the rack follows where it is accepted. */
static uint64_t step(uint32_t kind, uint32_t component, uint32_t block, uint32_t word, uint32_t value, uint32_t target, uint32_t plain, uint32_t owner,
                     uint32_t data, uint32_t position)
{
    const uint32_t n[HYL_WIRE_PLACES] = {kind, component, block, word, value, target, plain, owner, data, position};
    uint8_t bytes[HYL_WIRE_LONGEST];
    uint64_t written = hyl_wire_write(n, HYL_WIRE_PLACES, bytes, sizeof bytes, 0), result;

    if (HYL_KIND(written) != HYL_DONE) {
        printf("view: a step was not written\n");
        exit(1);
    }
    result = hyl_step(rec, rec_len, bytes, HYL_COUNT(written));
    if (HYL_KIND(result) == HYL_REFUSED)
        return result;
    same("the kind of a result", HYL_KIND(result), answer(kind));
    same("the component that a deliver served", HYL_COMPONENT_OF(result), kind == HYL_DELIVER ? rack.mesh[position].target : 0);
    same("the block that a deliver served", HYL_BLOCK_OF(result), kind == HYL_DELIVER ? rack.mesh[position].block : 0);
    if (kind == HYL_DELIVER)
        block = rack.mesh[position].block;
    apply(n);
    accepted++;
    kinds[kind - HYL_LOAD]++;
    if (rack.in_flight > fullest)
        fullest = rack.in_flight;
    compare();
    compare_letters(block);
    if (records && accepted % WRITTEN == 0)
        write_record();
    return result;
}

/* A load gives the component's word, or 5 with nothing held, or 6 with tokens and not valid. Document 02's No. 7 has no other rule for home. */
static void load(uint32_t component, uint32_t block, uint32_t word)
{
    const struct cell *cell = &rack.cell[block][component];
    uint32_t refusal = cell->plain + cell->owner == 0 ? HYL_NO_TOKEN : !cell->valid ? HYL_NO_DATA : 0;
    uint32_t given = refusal ? 0 : cell->words[word];
    uint64_t result = step(HYL_LOAD, component, block, word, 0, 0, 0, 0, 0, 0);

    same("the refusal of a load", HYL_REFUSAL(result), refusal);
    same("the word of a load", HYL_WORD_OF(result), given);
    if (component == 0) {
        home_loads[refusal]++;
        home_words += given != 0;
    }
}

/* Sends the owner of an unclaimed block without data, with some plain tokens, from the component that holds it: 12 for a dirty owner or to a board,
 * then 13 where the mesh is full. A refusal changes no figure. */
static void send_bare(uint32_t component, uint32_t block, uint32_t target)
{
    const struct cell *cell = &rack.cell[block][component];
    uint32_t dirty = cell->dirty, refusal = dirty || target > 0 ? HYL_BARE_OWNER : rack.in_flight == 64 ? HYL_MESH_FULL : 0;
    uint64_t result = step(HYL_SEND, component, block, 0, 0, target, any(cell->plain + 1), 1, 0, 0);

    same("the refusal of a bare owner", HYL_REFUSAL(result), refusal);
    if (refusal)
        compare();
    if (refusal != HYL_MESH_FULL)
        bare_sends[dirty][target > 0]++;
}

static void claim(uint32_t kind, uint32_t component, uint32_t block)
{
    step(kind, component, block, 0, 0, 0, 0, 0, 0, 0);
}

/* Brings a block to its active board, which stores all its words, or only the values that are there already, or nothing, and lowers. Where it stores
 * nothing it sends the owner home: bare, and with data where that is refused. */
static void gather(uint32_t block)
{
    uint32_t board, i, stores;

    claim(HYL_RAISE, 1 + any(rack.boards), block);
    board = active(block);
    if (board == 0)
        return;
    for (i = 0; i <= rack.boards; i++)
        claim(HYL_FORWARD, i, block);
    for (i = rack.in_flight; i-- > 0;)
        if (rack.mesh[i].block == block)
            step(HYL_DELIVER, 0, 0, 0, 0, 0, 0, 0, 0, i);
    stores = any(3);
    for (i = 0; i < 8 && stores > 0; i++)
        step(HYL_STORE, board, block, i, stores == 1 ? rack.cell[block][board].words[i] : any_word(), 0, 0, 0, 0, 0);
    claim(HYL_LOWER, board, block);
    if (stores == 0 && rack.cell[block][board].owner && active(block) == 0) {
        send_bare(board, block, 0);
        if (rack.cell[block][board].owner)
            step(HYL_SEND, board, block, 0, 0, 0, any(rack.cell[block][board].plain + 1), 1, 1, 0);
    }
}

/* Sends tokens singly until the mesh is full or nothing is left to send. */
static void flood(void)
{
    uint32_t block, c;

    for (block = 0; block < rack.blocks; block++) {
        while (active(block) != 0)
            claim(HYL_LOWER, active(block), block);
        for (c = 0; c <= rack.boards; c++) {
            const struct cell *cell = &rack.cell[block][c];
            while (cell->plain > 0 && rack.in_flight < 64)
                step(HYL_SEND, c, block, 0, 0, c == 0 ? rack.boards : c - 1, 1, 0, cell->valid, 0);
        }
    }
}

/* A step that is likely to be accepted. */
static void any_step(void)
{
    uint32_t component = any(rack.boards + 1), block = any(rack.blocks), target = any(rack.boards + 1), owner, data;
    const struct cell *cell = &rack.cell[block][component];

    switch (any(8)) {
    case 0:
    case 1:
    case 2:
        if (cell->owner && active(block) == 0 && any(2)) {
            /* Home, more often than the dice have it. */
            target = any(2) ? 0 : target;
            if (target != component) {
                send_bare(component, block, target);
                break;
            }
        }
        owner = cell->owner && any(4) == 0;
        data = owner || (cell->valid && any(2));
        step(HYL_SEND, component, block, 0, 0, target, any(cell->plain + 1), owner, data, 0);
        break;
    case 3:
    case 4:
        if (rack.in_flight > 0)
            step(HYL_DELIVER, 0, 0, 0, 0, 0, 0, 0, 0, any(rack.in_flight));
        break;
    case 5:
        claim(HYL_RAISE, component, block);
        break;
    case 6:
        claim(HYL_LOWER, active(block), block);
        claim(HYL_LOWER, component, block);
        break;
    default:
        gather(block);
        break;
    }
}

static void try_rack(uint32_t boards, uint32_t blocks, uint32_t tokens)
{
    uint32_t block, round;
    size_t i;

    memset(&rack, 0, sizeof rack);
    rack.boards = boards;
    rack.blocks = blocks;
    rack.tokens = tokens;
    for (block = 0; block < blocks; block++) {
        rack.cell[block][0].plain = tokens - 1;
        rack.cell[block][0].owner = rack.cell[block][0].valid = 1;
    }
    /* Of exactly its length, so that a sanitizer sees a place past it; and of any bytes, so that a place that no opening writes has no lucky 0. */
    rec_len = HYL_COUNT(hyl_record_len(blocks));
    if (blocks == 32)
        same("the longest record", HYL_RECORD_LONGEST, (uint32_t)rec_len);
    rec = malloc(rec_len);
    if (!rec)
        exit(1);
    for (i = 0; i < rec_len; i++)
        rec[i] = (uint8_t)any(256);
    if (HYL_KIND(hyl_open(rec, rec_len, boards, blocks, tokens)) != HYL_DONE) {
        printf("view: no opening of %" PRIu32 " %" PRIu32 " %" PRIu32 "\n", boards, blocks, tokens);
        exit(1);
    }
    compare();
    for (round = 0; round < ROUNDS; round++) {
        any_step();
        load(0, any(blocks), any(8));
        load(any(boards + 1), any(blocks), any(8));
        if (round % 500 == 400)
            flood();
    }
    free(rec);
}

int main(int argc, char **argv)
{
    static const uint32_t sizes[][3] = {{1, 1, 1}, {2, 1, 3}, {3, 2, 64}, {5, 7, 9}, {15, 3, 64}, {8, 32, 40}, {15, 32, 15}};
    size_t i;
    unsigned kind;

    if (argc > 1 && !(records = fopen(argv[1], "wb"))) {
        perror(argv[1]);
        return 1;
    }
    same("the number of the layout", HYL_VIEW_FORMAT, HYL_RECORD_FORMAT);
    for (i = 0; i < sizeof sizes / sizeof *sizes; i++)
        try_rack(sizes[i][0], sizes[i][1], sizes[i][2]);
    if (records && fclose(records) != 0) {
        perror(argv[1]);
        return 1;
    }
    /* What is never made, and a mesh that is never full, would leave figures untried. */
    for (kind = HYL_LOAD; kind <= HYL_FORWARD; kind++)
        if (kinds[kind - HYL_LOAD] < 100 || fullest < 64) {
            printf("view: only %lu accepted steps of kind %x, and %lu messages in flight\n", kinds[kind - HYL_LOAD], kind, fullest);
            return 1;
        }
    if (!home_words || !home_loads[HYL_NO_TOKEN] || !home_loads[HYL_NO_DATA]) {
        printf("view: loads at home gave %lu words that are not 0, 5 %lu times and 6 %lu times\n", home_words, home_loads[HYL_NO_TOKEN],
               home_loads[HYL_NO_DATA]);
        return 1;
    }
    if (!bare_sends[0][0] || !bare_sends[0][1] || !bare_sends[1][0] || !bare_sends[1][1]) {
        printf("view: bare sends of a clean owner: %lu to home, %lu to boards; of a dirty one: %lu to home, %lu to boards\n", bare_sends[0][0],
               bare_sends[0][1], bare_sends[1][0], bare_sends[1][1]);
        return 1;
    }
    for (i = 0; i < sizeof LETTERS - 1; i++)
        if (!letters[i]) {
            printf("view: no board showed %c\n", LETTERS[i]);
            return 1;
        }
    if (!records)
        printf("%lu figures of the view and of results in C, over %lu accepted steps, %lu of them loads at home and %lu bare sends, are as the rules "
               "have them; letters: %lu M, %lu O, %lu E, %lu S, %lu I\n",
               figures, accepted, home_loads[0], bare_sends[0][0], letters[0], letters[1], letters[2], letters[3], letters[4]);
    return 0;
}
