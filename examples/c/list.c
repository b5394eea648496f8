/* Lists a change journal as the program usnlist does, a line for each record with its numbers and the path that its file had when
 * the record was written, for a file of any size up to the library's domain.
 *
 * Build, at the repository's root, after tools/build-libraries:
 *     cc -std=c99 -O2 -Iinclude examples/c/list.c target/lib/libvolume_history.a -o target/list
 * Run:
 *     target/list samples/journal.bin
 *
 * The time grows with the records: a run of the rewind tells the paths of as many as its text has room for. */
#include <inttypes.h>
#include <stdio.h>
#include <stdlib.h>

#include "volume_history.h"

/* The longest path that is shown, in bytes, and how much room for text there is for each record. A run costs a pass over all
 * records, so that its text has room for many. */
#define LONGEST_PATH 65536
#define USUAL_PATH 64

/* Ends the program with a message. */
static void stop(const char *what)
{
    fprintf(stderr, "list: %s\n", what);
    exit(1);
}

/* Ends the program where a call was refused. */
static void answered(const char *call, uint32_t refusal)
{
    if (refusal != USN_OK) {
        fprintf(stderr, "list: %s refused with %" PRIu32 "\n", call, refusal);
        exit(1);
    }
}

/* Memory for so many elements of a size, at least one; its bytes are 0. */
static void *lent(size_t count, size_t size)
{
    void *memory = calloc(count == 0 ? 1 : count, size);
    if (memory == NULL) {
        stop("out of memory");
    }
    return memory;
}

/* All bytes of a file, and how many they are. One byte above the domain is enough to be refused. */
static uint8_t *read_file(const char *name, size_t *length)
{
    FILE *file = fopen(name, "rb");
    size_t room = 1 << 16;
    uint8_t *bytes = lent(room, 1);
    if (file == NULL) {
        perror(name);
        exit(1);
    }
    *length = 0;
    for (;;) {
        size_t got = fread(bytes + *length, 1, room - *length, file);
        *length += got;
        if (got == 0 || *length > USN_MAX_SLICE) {
            break;
        }
        if (*length == room) {
            room *= 2;
            bytes = realloc(bytes, room);
            if (bytes == NULL) {
                stop("out of memory");
            }
        }
    }
    if (ferror(file)) {
        perror(name);
        exit(1);
    }
    fclose(file);
    return bytes;
}

/* The numbers of the record at an offset, a space after each. */
static void print_numbers(const uint8_t *journal, size_t length, size_t offset)
{
    uint64_t r[USN_RECORD_WORDS];
    answered("usn_listed_record", usn_listed_record(journal, length, offset, r, USN_RECORD_WORDS));
    printf("%zu %" PRIu64 " %" PRIu64 " %" PRIu64 " %" PRIu64 " %" PRIu64 " ", offset, r[USN_MAJOR_VERSION], r[USN_MFT_ENTRY],
           r[USN_MFT_SEQUENCE], r[USN_PARENT_MFT_ENTRY], r[USN_PARENT_MFT_SEQUENCE]);
    printf("%" PRId64 " %" PRIu64 " %" PRIu64 " %08" PRIx64 " ", (int64_t)r[USN_USN], r[USN_SECONDS], r[USN_NANOSECONDS],
           r[USN_REASON]);
}

/* The bytes of a path; control characters are shown as question marks, and one alone for a path that is too long. */
static void print_path(uint8_t *text, size_t length)
{
    size_t i;
    if (length > LONGEST_PATH) {
        putchar('?');
        return;
    }
    for (i = 0; i < length; i++) {
        if (text[i] < 0x20) {
            text[i] = '?';
        }
    }
    fwrite(text, 1, length, stdout);
}

/* The lines of all listed records. */
static void list_records(const uint8_t *journal, size_t length, const size_t *list, size_t records)
{
    const uint8_t *image = journal; /* there is none: its count is 0 */
    size_t places = records * USN_PLACE_WORDS, words = records * TABLE_SLOT_WORDS, room = LONGEST_PATH + records * USUAL_PATH;
    uint64_t *slots = lent(words, sizeof *slots), *forward = lent(words, sizeof *forward);
    uint64_t *heads = lent(records, sizeof *heads), *nexts = lent(records, sizeof *nexts), *ends = lent(records, sizeof *ends);
    uint8_t *text = lent(room, 1);
    uint64_t chain[1]; /* the places are not asked for: its count is 0 */
    uint64_t out[REWIND_CHAIN_STEP_WORDS];
    size_t used, position = 0;

    answered("rewind_start_indexed",
             rewind_start_indexed(journal, length, image, 0, list, places, slots, words, 0, forward, words, heads, records, nexts,
                                  records, out, REWIND_START_WORDS));
    free(slots);
    used = out[REWIND_START_USED];
    while (position < records) {
        size_t i, from = 0, steps;
        answered("rewind_run", rewind_run(journal, length, image, 0, list, places, used, position, forward, words, heads, records,
                                          nexts, records, ends, records - position, text, room, out, REWIND_RUN_WORDS));
        steps = out[REWIND_RUN_STEPS];
        for (i = 0; i < steps; i++) {
            print_numbers(journal, length, list[(position + i) * USN_PLACE_WORDS]);
            print_path(text + from, ends[i] - from);
            putchar('\n');
            from = ends[i];
        }
        used = out[REWIND_RUN_USED];
        position = out[REWIND_RUN_POSITION];
        if (out[REWIND_RUN_STOPPED] == USN_TEXT_FULL && steps == 0) {
            /* The next path is longer than all the text. */
            print_numbers(journal, length, list[position * USN_PLACE_WORDS]);
            puts("?");
            answered("rewind_next_chain", rewind_next_chain(journal, length, image, 0, list, places, used, position, forward, words,
                                                            chain, 0, out, REWIND_CHAIN_STEP_WORDS));
            used = out[REWIND_STEP_USED];
            position = out[REWIND_STEP_POSITION];
        } else if (out[REWIND_RUN_STOPPED] != USN_TEXT_FULL) {
            answered("a step of the rewind", (uint32_t)out[REWIND_RUN_STOPPED]);
        }
    }
    free(text);
    free(ends);
    free(nexts);
    free(heads);
    free(forward);
}

int main(int count, char **arguments)
{
    size_t length, words;
    size_t *list;
    uint8_t *journal;
    uint64_t records;

    if (count != 2) {
        fprintf(stderr, "usage: list JOURNAL\n");
        return 2;
    }
    journal = read_file(arguments[1], &length);
    words = USN_ENOUGH_WORDS(length);
    list = lent(words, sizeof *list);
    answered("usn_parse_journal", usn_parse_journal(journal, length, list, words, &records, 1));

    puts("offset version entry sequence parent parent-sequence usn seconds nanoseconds reason path");
    list_records(journal, length, list, records);
    printf("records %" PRIu64 "\n", records);

    free(list);
    free(journal);
    if (fflush(stdout) != 0) {
        stop("standard output cannot be written");
    }
    return 0;
}
