/* The figures of a record, for programs that look at one: policies, displays, debuggers. The functions stand here whole and need no archive.
 *
 * docs/RECORD.md has the layout as a table. Each number of it stands here once, as a named constant, so that no program needs an offset of its own.
 *
 * Duties of the caller:
 *   - `rec` points to a sound record, all bytes of it. A record is sound once hyl_open was done, and hyl_step and hyl_run keep it so, whatever they
 *     are given. For bytes from elsewhere ask hyl_letter(rec, rec_len, 1, 0): every sound record has board 1 and block 0, so the answer is a
 *     letter where the record is sound and the refusal HYL_UNSOUND where it is not. hyl_view_format alone takes any bytes;
 *   - each index is in the range that its function names;
 *   - nothing writes the record during the call.
 * The functions check none of this. On a record that is not sound they give what stands in its bytes, which may be out of a figure's range. With an
 * index out of range they give bytes of another figure or of none, or read past the buffer, which C leaves undefined.
 *
 * The view never writes. The record needs no alignment, and any number of threads may look at the same one.
 */
#ifndef HYALONETH_VIEW_H
#define HYALONETH_VIEW_H

#include <stddef.h>
#include <stdint.h>

#ifdef __cplusplus
extern "C" {
#endif

/* The layout. Numbers are unsigned, the high byte first. A figure takes one byte unless said. In the header: */
#define HYL_VIEW_BOARD_COUNT_AT 0   /* N */
#define HYL_VIEW_BLOCK_COUNT_AT 1   /* B */
#define HYL_VIEW_TOKEN_COUNT_AT 2   /* T */
#define HYL_VIEW_MESSAGE_COUNT_AT 3 /* how many messages are in flight */
#define HYL_VIEW_FORMAT_AT 28       /* the format, four bytes: a name of three, and the number of the layout */

/* The format's name, "HYL" in ASCII, and the number of this layout, which is HYL_RECORD_FORMAT of hyaloneth.h. */
#define HYL_VIEW_FORMAT_NAME 0x48594C
#define HYL_VIEW_FORMAT 1

/* The messages stand one after the other, the oldest first. In a message: */
#define HYL_VIEW_MESSAGES_AT 32
#define HYL_VIEW_MESSAGE_SIZE 40
#define HYL_VIEW_MESSAGE_SENDER_AT 0
#define HYL_VIEW_MESSAGE_TARGET_AT 1
#define HYL_VIEW_MESSAGE_BLOCK_AT 2
#define HYL_VIEW_MESSAGE_PLAIN_AT 3
#define HYL_VIEW_MESSAGE_OWNER_AT 4
#define HYL_VIEW_MESSAGE_DATA_AT 5
#define HYL_VIEW_MESSAGE_DIRTY_AT 6
#define HYL_VIEW_MESSAGE_WORDS_AT 8 /* eight words */

/* The blocks stand one after the other. In a block, where a figure of component 0 stands; those of the next components follow: */
#define HYL_VIEW_BLOCKS_AT 2592
#define HYL_VIEW_BLOCK_SIZE 632
#define HYL_VIEW_PLAIN_AT 0
#define HYL_VIEW_OWNER_AT 16
#define HYL_VIEW_VALID_AT 32
#define HYL_VIEW_DIRTY_AT 48
#define HYL_VIEW_BARRING_AT 80 /* a set for each component; home's is always 0 */
#define HYL_VIEW_WORDS_AT 120  /* eight words for each component */

/* In a block, the waiting set: */
#define HYL_VIEW_WAITING_AT 112

/* The bytes of a set, of a word, and of the eight words of a component. */
#define HYL_VIEW_SET_SIZE 2
#define HYL_VIEW_WORD_SIZE 4
#define HYL_VIEW_WORDS_SIZE 32

/* Where message i and block b start. */
static inline size_t hyl_view_message_at(uint32_t i)
{
    return HYL_VIEW_MESSAGES_AT + HYL_VIEW_MESSAGE_SIZE * (size_t)i;
}

static inline size_t hyl_view_block_at(uint32_t block)
{
    return HYL_VIEW_BLOCKS_AT + HYL_VIEW_BLOCK_SIZE * (size_t)block;
}

/* The set, and the word, that starts at a byte. */
static inline uint32_t hyl_view_read_set(const uint8_t *set)
{
    return (uint32_t)set[0] << 8 | set[1];
}

static inline uint32_t hyl_view_read_word(const uint8_t *word)
{
    return (uint32_t)word[0] << 24 | (uint32_t)word[1] << 16 | (uint32_t)word[2] << 8 | word[3];
}

/* ---- The format */

/* The number of the layout that a record has; 0 where it has none. Here `rec` need not be sound: it points to any 32 bytes or more. A record with
 * another number than HYL_VIEW_FORMAT is not sound, and the other functions of this header are not for it. One with that number may be unsound all the
 * same. */
static inline uint32_t hyl_view_format(const uint8_t *rec)
{
    uint32_t format = hyl_view_read_word(rec + HYL_VIEW_FORMAT_AT);

    return format >> 8 == HYL_VIEW_FORMAT_NAME ? format & 0xff : 0;
}

/* ---- The rack */

/* N, the number of boards, 1 to 15. The components are 0 (home) to N. */
static inline uint32_t hyl_view_boards(const uint8_t *rec)
{
    return rec[HYL_VIEW_BOARD_COUNT_AT];
}

/* B, the number of blocks, 1 to 32. */
static inline uint32_t hyl_view_blocks(const uint8_t *rec)
{
    return rec[HYL_VIEW_BLOCK_COUNT_AT];
}

/* T, the number of tokens of each block, N to 64. */
static inline uint32_t hyl_view_tokens(const uint8_t *rec)
{
    return rec[HYL_VIEW_TOKEN_COUNT_AT];
}

/* The number of messages in flight, 0 to 64. */
static inline uint32_t hyl_view_in_flight(const uint8_t *rec)
{
    return rec[HYL_VIEW_MESSAGE_COUNT_AT];
}

/* How many bytes the record takes. */
static inline size_t hyl_view_record_len(const uint8_t *rec)
{
    return hyl_view_block_at(hyl_view_blocks(rec));
}

/* ---- A message in flight: i is its position, 0 the oldest, below hyl_view_in_flight */

/* The component that sent it. */
static inline uint32_t hyl_view_message_sender(const uint8_t *rec, uint32_t i)
{
    return rec[hyl_view_message_at(i) + HYL_VIEW_MESSAGE_SENDER_AT];
}

/* The component that it goes to. */
static inline uint32_t hyl_view_message_target(const uint8_t *rec, uint32_t i)
{
    return rec[hyl_view_message_at(i) + HYL_VIEW_MESSAGE_TARGET_AT];
}

/* The block of its tokens. */
static inline uint32_t hyl_view_message_block(const uint8_t *rec, uint32_t i)
{
    return rec[hyl_view_message_at(i) + HYL_VIEW_MESSAGE_BLOCK_AT];
}

/* How many plain tokens it carries. */
static inline uint32_t hyl_view_message_plain(const uint8_t *rec, uint32_t i)
{
    return rec[hyl_view_message_at(i) + HYL_VIEW_MESSAGE_PLAIN_AT];
}

/* 1 where it carries the owner, else 0. */
static inline uint32_t hyl_view_message_owner(const uint8_t *rec, uint32_t i)
{
    return rec[hyl_view_message_at(i) + HYL_VIEW_MESSAGE_OWNER_AT];
}

/* 1 where it carries the owner and the owner is dirty, else 0: a clean owner, or none. */
static inline uint32_t hyl_view_message_dirty(const uint8_t *rec, uint32_t i)
{
    return rec[hyl_view_message_at(i) + HYL_VIEW_MESSAGE_DIRTY_AT];
}

/* 1 where it carries the words, else 0. With the owner it is 0 only where the owner is clean and goes home. */
static inline uint32_t hyl_view_message_data(const uint8_t *rec, uint32_t i)
{
    return rec[hyl_view_message_at(i) + HYL_VIEW_MESSAGE_DATA_AT];
}

/* Its word of number `word`, 0 to 7: 0 where it has no data. */
static inline uint32_t hyl_view_message_word(const uint8_t *rec, uint32_t i, uint32_t word)
{
    return hyl_view_read_word(rec + hyl_view_message_at(i) + HYL_VIEW_MESSAGE_WORDS_AT + HYL_VIEW_WORD_SIZE * (size_t)word);
}

/* ---- What a component, 0 to N, has of a block, below B. For components above N, up to 15, the tokens and marks are 0; their words mean nothing. */

/* How many plain tokens it holds. */
static inline uint32_t hyl_view_plain(const uint8_t *rec, uint32_t component, uint32_t block)
{
    return rec[hyl_view_block_at(block) + HYL_VIEW_PLAIN_AT + component];
}

/* 1 where it holds the owner, else 0. */
static inline uint32_t hyl_view_owner(const uint8_t *rec, uint32_t component, uint32_t block)
{
    return rec[hyl_view_block_at(block) + HYL_VIEW_OWNER_AT + component];
}

/* 1 where it holds the owner and the owner is dirty, else 0: a clean owner, or none. Where hyl_view_owner is 1 and this is 0, HYL_BARE_OWNER does
 * not stop a board's send of the owner home without data. A board that holds all T shows 'M' where this is 1 and 'E' where it is 0 (hyl_letter of
 * hyaloneth.h). */
static inline uint32_t hyl_view_dirty(const uint8_t *rec, uint32_t component, uint32_t block)
{
    return rec[hyl_view_block_at(block) + HYL_VIEW_DIRTY_AT + component];
}

/* How many tokens it holds: plain plus owner. */
static inline uint32_t hyl_view_held(const uint8_t *rec, uint32_t component, uint32_t block)
{
    return hyl_view_plain(rec, component, block) + hyl_view_owner(rec, component, block);
}

/* 1 where its words are valid, else 0. A load of them is answered exactly where it is 1, at home too. */
static inline uint32_t hyl_view_valid(const uint8_t *rec, uint32_t component, uint32_t block)
{
    return rec[hyl_view_block_at(block) + HYL_VIEW_VALID_AT + component];
}

/* Its word of number `word`, 0 to 7. The words stay when the tokens leave, so without the valid mark they may be old. */
static inline uint32_t hyl_view_word(const uint8_t *rec, uint32_t component, uint32_t block, uint32_t word)
{
    return hyl_view_read_word(rec + hyl_view_block_at(block) + HYL_VIEW_WORDS_AT + HYL_VIEW_WORDS_SIZE * (size_t)component +
                              HYL_VIEW_WORD_SIZE * (size_t)word);
}

/* ---- The claims on a block, below B. In a set, board i is bit i: (set >> i & 1) is 1 where it has the board. Bit 0 is never 1. */

/* The set of boards that wait for the block. */
static inline uint32_t hyl_view_waiting(const uint8_t *rec, uint32_t block)
{
    return hyl_view_read_set(rec + hyl_view_block_at(block) + HYL_VIEW_WAITING_AT);
}

/* The barring set of a board, 1 to N: the board may raise only while it is empty. */
static inline uint32_t hyl_view_barring(const uint8_t *rec, uint32_t board, uint32_t block)
{
    return hyl_view_read_set(rec + hyl_view_block_at(block) + HYL_VIEW_BARRING_AT + HYL_VIEW_SET_SIZE * (size_t)board);
}

/* The active board, the lowest-numbered that waits; 0 where none waits. */
static inline uint32_t hyl_view_active(const uint8_t *rec, uint32_t block)
{
    uint32_t waiting = hyl_view_waiting(rec, block), board;

    for (board = 1; waiting >> board != 0; board++)
        if (waiting >> board & 1)
            return board;
    return 0;
}

#ifdef __cplusplus
}
#endif

#endif
