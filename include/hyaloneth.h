/* The engine of the hub card: it keeps the memory of a rack's boards coherent by Token Coherence.
 *
 * All state is the record, bytes at the front of a buffer that the caller owns and lends at every call. docs/RECORD.md has its layout, and
 * hyaloneth_view.h reads its figures. The engine keeps nothing between calls. A policy hands in step records as bytes; hyaloneth_wire.h writes and
 * reads them.
 *
 * A result is one 64-bit number: bits 56 to 63 the kind of answer, bits 48 to 55 a component, bits 32 to 47 a block, bits 0 to 31 a number. Parts
 * that a kind does not have are 0: only a deliver gives a component and a block. HYL_KIND, HYL_REFUSAL, HYL_COUNT, HYL_WORD_OF, HYL_LETTER_OF,
 * HYL_COMPONENT_OF and HYL_BLOCK_OF take it apart. A call that is refused changes nothing that was lent. No call relies on its caller having looked
 * first: every buffer, record, step and number is refused or accepted by its contents.
 *
 * The owner token of a block has a mark, clean or dirty, wherever it is. Fresh owners are clean. An accepted store makes the owner dirty, also a store
 * of the value that was there already. A delivery to home makes it clean. Otherwise the mark travels as it is. In a record that was opened and then
 * changed by these calls alone, home has the words of every block whose owner is clean. So a clean owner may go home without data: a send with owner 1,
 * data 0 and target 0. The mark is no field of a step record. hyl_view_dirty and hyl_view_message_dirty of hyaloneth_view.h read it.
 *
 * An accepted deliver gives HYL_SERVED, never HYL_DONE. So a caller that takes HYL_KIND(result) == HYL_DONE for "accepted" takes every deliver for a
 * refused one: ask HYL_KIND(result) != HYL_REFUSED, or for HYL_SERVED.
 *
 * Duties of the caller, for every pointer and length:
 *   - the pointer is not NULL, also where the length is 0, and is aligned for its type;
 *   - it points to at least as many elements as the length says, and the lengths in bytes are below 2^63;
 *   - what a call may write (`rec`, `at`, `replies`) overlaps nothing else of the same call, and nothing else uses it during the call.
 * Calls on different records may run at the same time.
 */
#ifndef HYALONETH_H
#define HYALONETH_H

#include "hyaloneth_wire.h"

#ifdef __cplusplus
extern "C" {
#endif

/* Kinds of answer besides HYL_DONE and HYL_REFUSED. */
#define HYL_WORD_GIVEN 2u   /* a load: the word */
#define HYL_LETTER_GIVEN 3u /* a state letter: its ASCII code; hyl_letter has the five letters */
#define HYL_SERVED 4u       /* a deliver: the target and the block of its message */

/* The word of an answered load, the letter of a state letter ('M', 'O', 'E', 'S' or 'I'), the component and the block that a deliver served; 0 where
 * the result has none. Home and the first block are 0 too, so ask for HYL_SERVED first. The names in capitals stand for the functions: a deliver as
 * the argument is made once. */
static inline uint32_t hyl_word_of(uint64_t result)
{
    return hyl_kind(result) == HYL_WORD_GIVEN ? (uint32_t)result : 0;
}

static inline char hyl_letter_of(uint64_t result)
{
    return hyl_kind(result) == HYL_LETTER_GIVEN ? (char)(uint8_t)result : '\0';
}

static inline uint32_t hyl_component_of(uint64_t result)
{
    return hyl_kind(result) == HYL_SERVED ? (uint32_t)(result >> 48) & 0xff : 0;
}

static inline uint32_t hyl_block_of(uint64_t result)
{
    return hyl_kind(result) == HYL_SERVED ? (uint32_t)(result >> 32) & 0xffff : 0;
}

#define HYL_WORD_OF(result) hyl_word_of(result)
#define HYL_LETTER_OF(result) hyl_letter_of(result)
#define HYL_COMPONENT_OF(result) hyl_component_of(result)
#define HYL_BLOCK_OF(result) hyl_block_of(result)

/* The refusals, by document 01's numbers. HYL_TORN (1) and HYL_SHORT_BUFFER (20) are in hyaloneth_wire.h. */
#define HYL_UNSOUND 2u      /* buffer too short for a record, or record not sound */
#define HYL_OFF_RACK 3u     /* component above N, block not below B, word above 7, target above N */
#define HYL_HOME 4u         /* store, raise, lower or letter at component 0 */
#define HYL_NO_TOKEN 5u     /* load or forward, nothing held */
#define HYL_NO_DATA 6u      /* load with tokens, not valid; send with data, not valid */
#define HYL_SHORT 7u        /* store, held below T */
#define HYL_SELF 8u         /* send to itself; forward by the active board */
#define HYL_CLAIMED 9u      /* send of a block that has an active board */
#define HYL_EMPTY 10u       /* send of no token */
#define HYL_NOT_HELD 11u    /* send of more plain than held, or an owner not held */
#define HYL_BARE_OWNER 12u  /* send of the owner, data no: a dirty owner, or any owner to a board */
#define HYL_MESH_FULL 13u   /* send or forward, 64 in flight */
#define HYL_NO_MESSAGE 14u  /* position not below the count in flight */
#define HYL_WAITING 15u     /* raise by a waiting board */
#define HYL_BARRED 16u      /* raise, barring set not empty */
#define HYL_NOT_WAITING 17u /* lower by a board not waiting */
#define HYL_UNCLAIMED 18u   /* forward, no active board */
#define HYL_SIZE 19u        /* opening with N, B or T out of range; hyl_record_len with such a B */

/* The longest record, in bytes: that of 32 blocks. */
#define HYL_RECORD_LONGEST 22816

/* The format of a record: the number of its layout, which stands in its bytes. It rises by one with every version that gives a byte of the record
 * another meaning. hyl_open writes it, whatever the buffer held; no other call does. With another format, or none, a record is not sound: hyl_step,
 * hyl_run and hyl_letter refuse it with HYL_UNSOUND, a torn step with HYL_TORN. hyl_view_format of hyaloneth_view.h tells which it has.
 *
 * Versions before format 1 wrote none, and cleared none. A buffer that held a record of this format may still have its bytes after such a version has
 * opened a record there. Clear the buffer before, or that record may pass for a sound one. */
#define HYL_RECORD_FORMAT 1

/* How many bytes the record of a rack of `blocks` blocks takes: done with the count, or refused with HYL_SIZE where blocks is not 1 to 32. */
uint64_t hyl_record_len(uint32_t blocks);

/* Opens a record at the front of a buffer: home holds all tokens of each block, valid, the owners are clean, and all words are 0. What the buffer
 * held before does not matter, and its bytes past the record stay as they are. So do room, the words of components above N and the places of the
 * messages: two records with the same figures may differ there.
 *   rec, rec_len  the buffer, and how many bytes it has
 *   boards        N, 1 to 15
 *   blocks        B, 1 to 32
 *   tokens        T, from N to 64: the tokens of each block
 * Done; refused with HYL_SIZE, then with HYL_SHORT_BUFFER. */
uint64_t hyl_open(uint8_t *rec, size_t rec_len, uint32_t boards, uint32_t blocks, uint32_t tokens);

/* Gives one step record to the record in a buffer.
 *   rec, rec_len    the buffer that holds the record
 *   step, step_len  the bytes of the step record, all of them
 * HYL_WORD_GIVEN with the word for a load, HYL_SERVED with the target and the block of its message for a deliver, HYL_DONE for any other step;
 * refused with HYL_TORN, then HYL_UNSOUND, then by the step's own lines of the refusal table in document 01's order. A load at home, component 0, is
 * judged as one at a board: refused with HYL_OFF_RACK, HYL_NO_TOKEN or HYL_NO_DATA, in that order, never with HYL_HOME. A send of the owner needs data,
 * but for a clean owner to home. Plain tokens may go with it; delivered, it makes home valid with the words that home has. Whether the record is sound
 * is decided anew at each call: see hyl_run for many steps. */
uint64_t hyl_step(uint8_t *rec, size_t rec_len, const uint8_t *step, size_t step_len);

/* Gives the step records that stand one behind the other in a list, as so many calls of hyl_step would, but decides once whether the record is
 * sound. The list is cut by the step records' lengths; one that the list ends before is one torn step. It stops at the end of the list, or when
 * `replies` is full.
 *   rec, rec_len          the buffer that holds the record
 *   list, list_len        the step records
 *   at                    where in the list to start; afterwards, where the next call goes on (list_len at the end). Where it is past the end of
 *                         the list, no step is made and it stays
 *   replies, replies_len  gets one result for each step, in order; the places behind them stay as they are
 * Gives the number of steps made. */
size_t hyl_run(uint8_t *rec, size_t rec_len, const uint8_t *list, size_t list_len, size_t *at, uint64_t *replies, size_t replies_len);

/* The state letter of a board and a block (HYL_LETTER_OF), by what the board holds of the block's T tokens:
 *   'M'  modified: all T, and the owner is dirty; no other component has a copy
 *   'O'  owned: the owner, clean or dirty, and fewer than T
 *   'E'  exclusive: all T, and the owner is clean; no other component has a copy, and home has the same words, if the record was opened and then changed
 *        by these calls alone
 *   'S'  shared: plain tokens only, and its words are valid
 *   'I'  invalid: anything else; that is no token, or plain tokens only without valid words
 *
 * A `switch` over the letter needs a case for each of the five. A board may store where it shows 'M' or 'E', so a caller that takes 'M' alone for "may
 * store" misses boards that have all tokens. A store makes 'E' 'M', also a store of the value that was there already. A board that shows 'E' may give
 * the block home bare, by a send with owner 1, data 0 and target 0: only HYL_CLAIMED, HYL_NOT_HELD (more plain tokens than the board holds) and
 * HYL_MESH_FULL can refuse it, in that order. Where it shows 'M', HYL_BARE_OWNER does, unless HYL_CLAIMED or HYL_NOT_HELD comes first. 'O' does not say
 * which mark the owner has: hyl_view_dirty of hyaloneth_view.h does.
 *
 * Refused with HYL_UNSOUND, HYL_OFF_RACK or HYL_HOME, in that order.
 *   rec, rec_len  the buffer that holds the record
 *   component     the board, 1 to N
 *   block         the block, below B */
uint64_t hyl_letter(const uint8_t *rec, size_t rec_len, uint32_t component, uint32_t block);

#ifdef __cplusplus
}
#endif

#endif
