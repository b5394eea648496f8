/* Carves an image, seeds a table with its entries, and prints a line for each entry with what was carved and its path. The first
 * line has the counters. Names and paths are UTF-8 as the library writes them, with a tab before each, and with ^ for each control
 * character, as fls has them.
 *
 *     entries COUNT candidates CANDIDATES rejected REJECTED bytes BYTES
 *     OFFSET ENTRY SEQUENCE PARENT PARENT_SEQUENCE DIRECTORY IN_USE<tab>NAME<tab>PATH */
#include <inttypes.h>
#include <stdio.h>
#include <stdlib.h>

#include "volume_history.h"

/* A path has at most 257 names, of at most 255 units here, with a separator each, behind the longest end. */
#define LONGEST_NAME (255 * 3)
#define LONGEST_PATH (257 * (LONGEST_NAME + 1) + 64)

/* The image, which is lent to every call; there is no journal. */
static uint8_t *image;
static size_t image_len;

/* Ends the program with a message. */
static void stop(const char *what)
{
    fprintf(stderr, "paths: %s\n", what);
    exit(1);
}

/* Ends the program where a call was refused. */
static void answered(const char *call, uint32_t refusal)
{
    if (refusal != USN_OK) {
        fprintf(stderr, "paths: %s refused with %" PRIu32 "\n", call, refusal);
        exit(1);
    }
}

/* So many words, at least one. */
static uint64_t *words(size_t count)
{
    uint64_t *memory = calloc(count == 0 ? 1 : count, sizeof *memory);
    if (memory == NULL) {
        stop("out of memory");
    }
    return memory;
}

/* Reads the image from a file. */
static void read_image(const char *name)
{
    FILE *file = fopen(name, "rb");
    long end;
    if (file == NULL || fseek(file, 0, SEEK_END) != 0 || (end = ftell(file)) < 0 || fseek(file, 0, SEEK_SET) != 0) {
        perror(name);
        exit(1);
    }
    image_len = (size_t)end;
    image = malloc(image_len == 0 ? 1 : image_len);
    if (image == NULL) {
        stop("out of memory");
    }
    if (fread(image, 1, image_len, file) != image_len) {
        stop("the file cannot be read to its end");
    }
    fclose(file);
}

/* A text behind a tab. */
static void print_text(const uint8_t *text, size_t length)
{
    size_t i;
    putchar('\t');
    for (i = 0; i < length; i++) {
        putchar(text[i] < 0x20 || text[i] == 0x7f ? '^' : text[i]);
    }
}

/* The line of a carved entry: its words but for the name's place, its name and the path of its key. */
static void print_entry(const uint64_t *entry, const uint64_t *slots, size_t slots_len, size_t used)
{
    static uint8_t text[LONGEST_PATH];
    uint64_t chain[1]; /* the places are not asked for: its count is 0 */
    uint64_t out[PATH_WORDS];

    printf("%" PRIu64 " %" PRIu64 " %" PRIu64, entry[MFT_OFFSET], entry[MFT_ENTRY_NUMBER], entry[MFT_SEQUENCE_NUMBER]);
    printf(" %" PRIu64 " %" PRIu64, entry[MFT_PARENT_ENTRY], entry[MFT_PARENT_SEQUENCE]);
    printf(" %" PRIu64 " %" PRIu64, entry[MFT_IS_DIRECTORY], entry[MFT_IS_IN_USE]);
    answered("path_decode", path_decode(NULL, 0, image, image_len, 1, entry[MFT_NAME_OFFSET], entry[MFT_NAME_LENGTH], text,
                                        sizeof text, out, 1));
    print_text(text, out[0]);
    answered("path_resolve", path_resolve(NULL, 0, image, image_len, slots, slots_len, used, entry[MFT_ENTRY_NUMBER],
                                          entry[MFT_SEQUENCE_NUMBER], chain, 0, text, sizeof text, out, PATH_WORDS));
    print_text(text, out[PATH_TEXT_LENGTH]);
    putchar('\n');
}

int main(int argc, char **argv)
{
    uint64_t out[MFT_CARVING_WORDS], used, *list, *slots;
    size_t room, entries, slots_len, i;

    if (argc != 2) {
        stop("usage: paths IMAGE");
    }
    read_image(argv[1]);
    room = image_len / 1024 * MFT_ENTRY_WORDS;
    list = words(room);
    answered("mft_carve_entries", mft_carve_entries(image, image_len, list, room, out, MFT_CARVING_WORDS));
    entries = out[MFT_CARVING_ENTRIES_CARVED];
    printf("entries %zu candidates %" PRIu64 " rejected %" PRIu64 " bytes %" PRIu64 "\n", entries,
           out[MFT_CARVING_CANDIDATES_EXAMINED], out[MFT_CARVING_REJECTED], out[MFT_CARVING_BYTES_SCANNED]);

    slots_len = entries * TABLE_SLOT_WORDS;
    slots = words(slots_len);
    answered("table_seed", table_seed(NULL, 0, image, image_len, slots, slots_len, 0, list, entries * MFT_ENTRY_WORDS, &used, 1));
    for (i = 0; i < entries; i++) {
        print_entry(list + i * MFT_ENTRY_WORDS, slots, slots_len, used);
    }
    return fflush(stdout) == 0 ? 0 : 1;
}
