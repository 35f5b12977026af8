/* Step records of the hub card: the reader and the writer.
 *
 * A step is handed over as twelve numbers. Place 0 has the kind byte; place t, 1 to 11, has the value of the field with tag t, and 0 where the
 * kind has no such field. No field has tag 10 or 11 yet, so these places are 0.
 *
 * A result is one 64-bit number: HYL_KIND, HYL_REFUSAL and HYL_COUNT take it apart. A call that is refused changes nothing that was lent.
 *
 * Duties of the caller, for every pointer and length:
 *   - the pointer is not NULL, also where the length is 0, and is aligned for its type;
 *   - it points to at least as many elements as the length says, and the lengths in bytes are below 2^63;
 *   - an `out` overlaps no other buffer of the same call, and nothing else uses it during the call.
 */
#ifndef HYALONETH_WIRE_H
#define HYALONETH_WIRE_H

#include <stddef.h>
#include <stdint.h>

#ifdef __cplusplus
extern "C" {
#endif

/* The kind bytes, with the places that each kind has. */
#define HYL_LOAD 0x10u    /* component, block, word */
#define HYL_STORE 0x11u   /* component, block, word, value */
#define HYL_SEND 0x12u    /* component, block, target, plain, owner, data */
#define HYL_DELIVER 0x13u /* position */
#define HYL_RAISE 0x14u   /* component, block */
#define HYL_LOWER 0x15u   /* component, block */
#define HYL_FORWARD 0x16u /* component, block */

/* The places: the tags of the fields. A value is 0 to 255 unless said. Component and target are 0 for home. */
#define HYL_COMPONENT 1
#define HYL_BLOCK 2
#define HYL_WORD 3
#define HYL_VALUE 4 /* 32 bits */
#define HYL_TARGET 5
#define HYL_PLAIN 6
#define HYL_OWNER 7 /* 0 or 1 */
#define HYL_DATA 8  /* 0 or 1 */
#define HYL_POSITION 9

/* How many places there are. */
#define HYL_WIRE_PLACES 12

/* The longest step record, in bytes. */
#define HYL_WIRE_LONGEST 27

/* A result taken apart: its kind (HYL_DONE or HYL_REFUSED), the refusal's number (0 where there is none), the count of bytes placed (0 where it
 * was refused). Each is a function, so that an argument such as a call is evaluated once; the names in capitals stand for the functions. */
#define HYL_DONE 0u
#define HYL_REFUSED 1u

static inline unsigned hyl_kind(uint64_t result)
{
    return (unsigned)(result >> 56);
}

static inline uint32_t hyl_refusal(uint64_t result)
{
    return hyl_kind(result) == HYL_REFUSED ? (uint32_t)result : 0;
}

static inline uint32_t hyl_count(uint64_t result)
{
    return hyl_kind(result) == HYL_DONE ? (uint32_t)result : 0;
}

#define HYL_KIND(result) hyl_kind(result)
#define HYL_REFUSAL(result) hyl_refusal(result)
#define HYL_COUNT(result) hyl_count(result)

/* The refusals of the two calls. */
#define HYL_TORN 1u          /* bytes are no step record, or numbers no step */
#define HYL_SHORT_BUFFER 20u /* the buffer ends too early */

/* Reads the record that the `bytes_len` bytes at `bytes` are, all of them, and writes the step's twelve numbers to out[0] to out[11]; numbers
 * past them stay as they are.
 *   bytes, bytes_len  the record
 *   out, out_len      where the numbers go, and how many numbers `out` has
 * Done, with the count 0; refused with HYL_TORN where the bytes are no record, then with HYL_SHORT_BUFFER where out_len is below 12. */
uint64_t hyl_wire_read(const uint8_t *bytes, size_t bytes_len, uint32_t *out, size_t out_len);

/* Writes the record of the step that numbers[0] to numbers[11] encode to out[at] and the bytes after it; bytes around it stay as they are.
 *   numbers, numbers_len  the step, and how many numbers there are; those past the twelfth are not read
 *   out, out_len          the buffer, and how many bytes it has
 *   at                    the offset of the record's first byte
 * Done, with the count of bytes placed; refused with HYL_TORN where the numbers are no step (fewer than twelve, an unknown kind byte, a value
 * that its field does not take, such as component 258 or owner 2, or a number other than 0 at a place that the kind does not have), then with
 * HYL_SHORT_BUFFER where out[at] and on has no room for the record. */
uint64_t hyl_wire_write(const uint32_t *numbers, size_t numbers_len, uint8_t *out, size_t out_len, size_t at);

/* One call for each kind. The values are 32 bits wide, so that one that a field does not take is refused and never cut. */
static inline uint64_t hyl_wire_write_load(uint8_t *out, size_t out_len, size_t at, uint32_t component, uint32_t block, uint32_t word)
{
    const uint32_t numbers[HYL_WIRE_PLACES] = {HYL_LOAD, component, block, word};
    return hyl_wire_write(numbers, HYL_WIRE_PLACES, out, out_len, at);
}

static inline uint64_t hyl_wire_write_store(uint8_t *out, size_t out_len, size_t at, uint32_t component, uint32_t block, uint32_t word,
                                            uint32_t value)
{
    const uint32_t numbers[HYL_WIRE_PLACES] = {HYL_STORE, component, block, word, value};
    return hyl_wire_write(numbers, HYL_WIRE_PLACES, out, out_len, at);
}

static inline uint64_t hyl_wire_write_send(uint8_t *out, size_t out_len, size_t at, uint32_t component, uint32_t block, uint32_t target,
                                           uint32_t plain, uint32_t owner, uint32_t data)
{
    const uint32_t numbers[HYL_WIRE_PLACES] = {HYL_SEND, component, block, 0, 0, target, plain, owner, data};
    return hyl_wire_write(numbers, HYL_WIRE_PLACES, out, out_len, at);
}

static inline uint64_t hyl_wire_write_deliver(uint8_t *out, size_t out_len, size_t at, uint32_t position)
{
    const uint32_t numbers[HYL_WIRE_PLACES] = {HYL_DELIVER, 0, 0, 0, 0, 0, 0, 0, 0, position};
    return hyl_wire_write(numbers, HYL_WIRE_PLACES, out, out_len, at);
}

static inline uint64_t hyl_wire_write_raise(uint8_t *out, size_t out_len, size_t at, uint32_t component, uint32_t block)
{
    const uint32_t numbers[HYL_WIRE_PLACES] = {HYL_RAISE, component, block};
    return hyl_wire_write(numbers, HYL_WIRE_PLACES, out, out_len, at);
}

static inline uint64_t hyl_wire_write_lower(uint8_t *out, size_t out_len, size_t at, uint32_t component, uint32_t block)
{
    const uint32_t numbers[HYL_WIRE_PLACES] = {HYL_LOWER, component, block};
    return hyl_wire_write(numbers, HYL_WIRE_PLACES, out, out_len, at);
}

static inline uint64_t hyl_wire_write_forward(uint8_t *out, size_t out_len, size_t at, uint32_t component, uint32_t block)
{
    const uint32_t numbers[HYL_WIRE_PLACES] = {HYL_FORWARD, component, block};
    return hyl_wire_write(numbers, HYL_WIRE_PLACES, out, out_len, at);
}

#ifdef __cplusplus
}
#endif

#endif
