/* Keeps a record in a file from one run to the next, and says why where it cannot be taken up. Board 1 counts the runs in word 0 of block 0.
 * hosts/rust/examples/resume.rs is the same program in Rust: each goes on with what the other has kept. */
#include <errno.h>
#include <inttypes.h>
#include <stdio.h>
#include <stdlib.h>
#include "hyaloneth.h"
#include "hyaloneth_view.h"

static uint8_t rec[HYL_RECORD_LONGEST];
static size_t rec_len;
static const char *file;

static void fail(void)
{
    perror(file);
    exit(1);
}

/* The result of the step that was written to `step` with this result. */
static uint64_t must(const uint8_t *step, uint64_t written)
{
    uint64_t result = HYL_KIND(written) == HYL_DONE ? hyl_step(rec, rec_len, step, HYL_COUNT(written)) : written;

    if (HYL_KIND(result) == HYL_REFUSED) {
        fprintf(stderr, "%s: a step was refused %" PRIu32 "\n", file, HYL_REFUSAL(result));
        exit(1);
    }
    return result;
}

/* A new rack: board 1 gets the block, so it may load and store. */
static void open_rack(void)
{
    uint8_t step[HYL_WIRE_LONGEST];

    rec_len = sizeof rec;
    hyl_open(rec, rec_len, 2, 1, 3);
    must(step, hyl_wire_write_send(step, sizeof step, 0, 0, 0, 1, 2, 1, 1));
    must(step, hyl_wire_write_deliver(step, sizeof step, 0, 0));
}

/* Takes up what the file holds, if it is a sound record: every sound record has board 1 and block 0. */
static void take_up(FILE *kept)
{
    uint32_t format;

    rec_len = fread(rec, 1, sizeof rec, kept);
    if (ferror(kept))
        fail();
    if (HYL_REFUSAL(hyl_letter(rec, rec_len, 1, 0)) != HYL_UNSOUND)
        return;
    /* The format stands in the header, before the messages. */
    format = rec_len < HYL_VIEW_MESSAGES_AT ? 0 : hyl_view_format(rec);
    if (format == 0)
        fprintf(stderr, "%s: no record, or one of a version without formats\n", file);
    else if (format != HYL_RECORD_FORMAT)
        fprintf(stderr, "%s: a record of format %" PRIu32 ", this engine has %d\n", file, format, HYL_RECORD_FORMAT);
    else
        fprintf(stderr, "%s: a record of this engine's format, cut short or damaged\n", file);
    exit(1);
}

int main(int argc, char **argv)
{
    uint8_t step[HYL_WIRE_LONGEST];
    uint32_t runs;
    FILE *kept;

    if (argc != 2) {
        fprintf(stderr, "usage: resume FILE, where the record is kept\n");
        return 2;
    }
    file = argv[1];
    kept = fopen(file, "rb");
    if (kept) {
        take_up(kept);
        fclose(kept);
    } else if (errno == ENOENT) {
        open_rack();
    } else {
        fail();
    }
    runs = 1 + HYL_WORD_OF(must(step, hyl_wire_write_load(step, sizeof step, 0, 1, 0, 0)));
    must(step, hyl_wire_write_store(step, sizeof step, 0, 1, 0, 0, runs));
    printf("run %" PRIu32 "\n", runs);
    rec_len = hyl_view_record_len(rec);
    kept = fopen(file, "wb");
    if (!kept || fwrite(rec, 1, rec_len, kept) != rec_len || fclose(kept) != 0)
        fail();
    return 0;
}
