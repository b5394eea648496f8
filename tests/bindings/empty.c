/* Every call with empty slices handed over as NULL and 0: the answer, and the words of it. */
#include "volume_history.h"

#include <stdio.h>
#include <string.h>

static int failures = 0;

/* Counts a failure where a call did not answer the number, or where its first words are not those expected. */
static void expect(const char *call, uint32_t answer, uint32_t number, const uint64_t *out, size_t words, const uint64_t *expected)
{
    if (answer != number || memcmp(out, expected, words * sizeof *out) != 0) {
        printf("%s with empty slices answers %u, or other words than expected\n", call, (unsigned)answer);
        failures++;
    }
}

/* A word that no call writes here. */
#define KEPT UINT64_C(0x0123456789abcdef)

static const uint64_t zeros[8] = {0};
static const uint64_t kept[1] = {KEPT};

int main(void)
{
    static uint8_t buffer[USN_WINDOW_BYTES];
    uint64_t out[32];
    uint64_t reader[USN_READER_WORDS];
    uint8_t text[1];

#define NONE NULL, 0
#define OUT out, 32
#define FRESH (memset(out, 0xff, sizeof out), out[0] = KEPT)
    FRESH;
    expect("usn_parse_record_v2", usn_parse_record_v2(NONE, OUT), USN_SHORT_SLICE, out, 1, kept);
    expect("usn_parse_record_v3", usn_parse_record_v3(NONE, OUT), USN_SHORT_SLICE, out, 1, kept);
    expect("usn_listed_record", usn_listed_record(NONE, 0, OUT), USN_NOT_A_RECORD, out, 1, kept);
    FRESH;
    expect("usn_parse_journal", usn_parse_journal(NONE, NONE, OUT), USN_OK, out, 1, zeros);
    FRESH;
    expect("usn_carve_records", usn_carve_records(NONE, NONE, OUT), USN_OK, out, 5, zeros);
    {
        const uint64_t fresh[USN_READER_WORDS] = {0, 0, 0, 0, 100, 0};
        expect("usn_reader_new", usn_reader_new(100, reader, USN_READER_WORDS), USN_OK, reader, USN_READER_WORDS, fresh);
    }
    FRESH;
    expect("usn_reader_next", usn_reader_next(reader, USN_READER_WORDS, NONE, OUT), USN_BAD_BUFFER, out, 1, kept);
    expect("usn_reader_give", usn_reader_give(reader, USN_READER_WORDS, NONE, NONE, OUT), USN_BAD_BUFFER, out, 1, kept);
    {
        const uint64_t wants[3] = {1, 0, 100};
        expect("usn_reader_next", usn_reader_next(reader, USN_READER_WORDS, buffer, sizeof buffer, OUT), USN_OK, out, 3, wants);
    }
    FRESH;
    expect("usn_reader_give", usn_reader_give(reader, USN_READER_WORDS, buffer, sizeof buffer, NONE, OUT), USN_OK, out, 3, zeros);
    FRESH;
    expect("mft_carve_entries", mft_carve_entries(NONE, NONE, OUT), USN_OK, out, 4, zeros);
    FRESH;
    expect("utf16_decode", utf16_decode(NONE, NONE, OUT), USN_OK, out, 1, zeros);
    FRESH;
    expect("table_insert", table_insert(NONE, NONE, NONE, 0, 42, 3, 5, 5, 0, 0, 0, OUT), USN_TABLE_FULL, out, 1, kept);
    expect("table_insert_if_absent", table_insert_if_absent(NONE, NONE, NONE, 0, 42, 3, 5, 5, 0, 0, 0, OUT), USN_TABLE_FULL, out, 1,
           kept);
    expect("table_seed", table_seed(NONE, NONE, NONE, 0, NONE, OUT), USN_OK, out, 1, zeros);
    FRESH;
    expect("table_seed_indexed", table_seed_indexed(NONE, NONE, NONE, 0, NONE, NONE, NONE, OUT), USN_OK, out, 1, zeros);
    {
        const struct table_seeded seeded = table_seed_entries(NONE, NONE, NONE, 0, NONE);
        const uint64_t used = seeded.used;
        expect("table_seed_entries", seeded.refusal, USN_OK, &used, 1, zeros);
    }
    {
        const uint64_t root[5] = {0, 0, 0, 0, 1};
        FRESH;
        expect("path_resolve", path_resolve(NONE, NONE, NONE, 0, 5, 5, NONE, NONE, OUT), USN_TEXT_FULL, out, 1, kept);
        expect("path_resolve", path_resolve(NONE, NONE, NONE, 0, 5, 5, NONE, text, sizeof text, OUT), USN_OK, out, 5, root);
        FRESH;
        expect("path_chain", path_chain(NONE, NONE, NONE, 0, 5, 5, NONE, OUT), USN_OK, out, 4, root);
    }
    FRESH;
    expect("path_decode", path_decode(NONE, NONE, 0, 0, 0, NONE, OUT), USN_OK, out, 1, zeros);
    FRESH;
    expect("rewind_start", rewind_start(NONE, NONE, NONE, NONE, 0, NONE, OUT), USN_OK, out, 2, zeros);
    FRESH;
    expect("rewind_start_indexed", rewind_start_indexed(NONE, NONE, NONE, NONE, 0, NONE, NONE, NONE, OUT), USN_OK, out, 2, zeros);
    FRESH;
    expect("rewind_next", rewind_next(NONE, NONE, NONE, 0, 0, NONE, NONE, NONE, OUT), USN_OK, out, 3, zeros);
    FRESH;
    expect("rewind_next_chain", rewind_next_chain(NONE, NONE, NONE, 0, 0, NONE, NONE, OUT), USN_OK, out, 3, zeros);
    FRESH;
    expect("rewind_run", rewind_run(NONE, NONE, NONE, 0, 0, NONE, NONE, NONE, NONE, NONE, OUT), USN_OK, out, 4, zeros);

    /* No words for the answer, nor for a window. */
#define SHORT(call, answer) expect(call, answer, USN_LIST_FULL, zeros, 0, zeros)
    SHORT("usn_parse_record_v2", usn_parse_record_v2(NONE, NONE));
    SHORT("usn_parse_record_v3", usn_parse_record_v3(NONE, NONE));
    SHORT("usn_listed_record", usn_listed_record(NONE, 0, NONE));
    SHORT("usn_parse_journal", usn_parse_journal(NONE, NONE, NONE));
    SHORT("usn_carve_records", usn_carve_records(NONE, NONE, NONE));
    SHORT("usn_reader_new", usn_reader_new(0, NONE));
    SHORT("usn_reader_next", usn_reader_next(NONE, NONE, NONE));
    SHORT("usn_reader_next", usn_reader_next(reader, USN_READER_WORDS, NONE, NONE));
    SHORT("usn_reader_give", usn_reader_give(NONE, NONE, NONE, NONE));
    SHORT("usn_reader_give", usn_reader_give(reader, USN_READER_WORDS, NONE, NONE, NONE));
    SHORT("mft_carve_entries", mft_carve_entries(NONE, NONE, NONE));
    SHORT("utf16_decode", utf16_decode(NONE, NONE, NONE));
    SHORT("table_insert", table_insert(NONE, NONE, NONE, 0, 42, 3, 5, 5, 0, 0, 0, NONE));
    SHORT("table_insert_if_absent", table_insert_if_absent(NONE, NONE, NONE, 0, 42, 3, 5, 5, 0, 0, 0, NONE));
    SHORT("table_seed", table_seed(NONE, NONE, NONE, 0, NONE, NONE));
    SHORT("table_seed_indexed", table_seed_indexed(NONE, NONE, NONE, 0, NONE, NONE, NONE, NONE));
    SHORT("path_resolve", path_resolve(NONE, NONE, NONE, 0, 5, 5, NONE, NONE, NONE));
    SHORT("path_chain", path_chain(NONE, NONE, NONE, 0, 5, 5, NONE, NONE));
    SHORT("path_decode", path_decode(NONE, NONE, 0, 0, 0, NONE, NONE));
    SHORT("rewind_start", rewind_start(NONE, NONE, NONE, NONE, 0, NONE, NONE));
    SHORT("rewind_start_indexed", rewind_start_indexed(NONE, NONE, NONE, NONE, 0, NONE, NONE, NONE, NONE));
    SHORT("rewind_next", rewind_next(NONE, NONE, NONE, 0, 0, NONE, NONE, NONE, NONE));
    SHORT("rewind_next_chain", rewind_next_chain(NONE, NONE, NONE, 0, 0, NONE, NONE, NONE));
    SHORT("rewind_run", rewind_run(NONE, NONE, NONE, 0, 0, NONE, NONE, NONE, NONE, NONE, NONE));
    return failures == 0 ? 0 : 1;
}
