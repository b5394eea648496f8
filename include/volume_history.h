/* The proved reader of NTFS history as C functions: beside the journal reader of usn_journal_reader.h the MFT entries in an image,
 * the text of names, the lookup table, paths and rewinds. libvolume_history.a has all of them, those of usn_journal_reader.h
 * included; tools/build-libraries writes it to target/lib. What that header says of slices, answers and refusals holds here too.
 *
 * A name is a place: a source, which is 0 for the journal and any other number for the image, an offset in bytes from the start of
 * that slice, and a length in bytes. Calls take journal and image beside a table, and places in it mean those slices: hand the same
 * ones over each time. Either may be empty.
 *
 * NTFS stores an MFT entry with a check value at the last two bytes of each sector of 512, and keeps the true bytes in the entry's
 * update sequence array, whose offset stands at 4 and whose count at 6: the check value, and the true end of each sector. The array
 * is sound where the count is 3, the offset is even and at least 48, the array ends by the first attribute (its offset stands at 20)
 * and by byte 510, and both sectors end with the check value. The restored entry has the true ends, and every other byte as stored.
 *
 * A name in the image whose place, by its length as stored, lies inside the 1024 bytes from a multiple of 1024 on, where these lie
 * in the image, begin with FILE and have a sound array, is decoded from the restored entry. A name at any other place of the image,
 * and every name in the journal, is decoded from the bytes as they are. */
#ifndef VOLUME_HISTORY_H
#define VOLUME_HISTORY_H

#include "usn_journal_reader.h"

#include <stdbool.h>

#ifdef __cplusplus
extern "C" {
#endif

/* The words of a carved MFT entry, by their index. */
enum mft_entry_word {
    MFT_OFFSET = 0,           /* in the image */
    MFT_ENTRY_NUMBER = 1,
    MFT_SEQUENCE_NUMBER = 2,
    MFT_NAME_OFFSET = 3,      /* in bytes, from the start of the image */
    MFT_NAME_LENGTH = 4,      /* in bytes; the name is UTF-16, little endian, and path_decode gives its text */
    MFT_PARENT_ENTRY = 5,
    MFT_PARENT_SEQUENCE = 6,
    MFT_IS_DIRECTORY = 7,     /* 1 or 0 */
    MFT_IS_IN_USE = 8,        /* 1 or 0 */
    MFT_ENTRY_WORDS = 9
};

/* The words of an image carving's answer, by their index. */
enum mft_carving_word {
    MFT_CARVING_BYTES_SCANNED = 0,
    MFT_CARVING_CANDIDATES_EXAMINED = 1, /* the sum of the two below */
    MFT_CARVING_ENTRIES_CARVED = 2,
    MFT_CARVING_REJECTED = 3,
    MFT_CARVING_WORDS = 4
};

/* mft_carve_entries: the MFT entries in an image, looked for at each multiple of 1024. For each MFT_ENTRY_WORDS words go to list,
 * and the MFT_CARVING_WORDS counters to out. An image of n bytes has at most n / 1024 entries. An entry whose array is not sound is
 * rejected; names and parents are those of the restored entry, and a name's place is where it stands in the image.
 * Refuses: 1 the image is above the domain; 5 out has fewer than 4 words, or list fewer than nine for each entry. */
uint32_t mft_carve_entries(const uint8_t *image, size_t image_len, uint64_t *list, size_t list_len, uint64_t *out, size_t out_len);

/* utf16_decode: the UTF-16 of bytes, little endian, as UTF-8 at the front of text; how many bytes that is goes to out, one word.
 * An unpaired surrogate becomes EF BF BD (h), an odd last byte is dropped. Three bytes of text for each two of bytes always do. The
 * bytes are taken as they are: for a name in an image call path_decode.
 * Refuses: 1 the bytes are above the domain; 5 out has no word; 8 the text is too small. */
uint32_t utf16_decode(const uint8_t *bytes, size_t bytes_len, uint8_t *text, size_t text_len, uint64_t *out, size_t out_len);

/* A table is lent words, TABLE_SLOT_WORDS for each slot, and the number of its used slots, which are the first ones. An empty one
 * has 0 used slots and any words. A key is an entry and a sequence. Of equal keys the lowest slot counts; the calls make none. */
enum table_slot_word {
    TABLE_ENTRY = 0,
    TABLE_SEQUENCE = 1,
    TABLE_PARENT_ENTRY = 2,
    TABLE_PARENT_SEQUENCE = 3,
    TABLE_NAME_SOURCE = 4,
    TABLE_NAME_OFFSET = 5,
    TABLE_NAME_LENGTH = 6,
    TABLE_SLOT_WORDS = 7
};

/* table_insert: an entry under its key, in place of a known one: its parent's key and its name's place. The used slots after it go
 * to out, one word. Of journal and image the lengths alone are used.
 * Refuses: 5 out has no word; 9 used is above the slots; 7 the name's place passes its slice; 6 the key is new and no slot is
 * left. */
uint32_t table_insert(const uint8_t *journal, size_t journal_len, const uint8_t *image, size_t image_len, uint64_t *slots,
                      size_t slots_len, size_t used, uint64_t entry, uint64_t sequence, uint64_t parent_entry,
                      uint64_t parent_sequence, uint64_t source, uint64_t offset, uint64_t length, uint64_t *out, size_t out_len);

/* table_insert_if_absent: the same where the key is new; a known entry is left alone.
 * Refuses: as table_insert. */
uint32_t table_insert_if_absent(const uint8_t *journal, size_t journal_len, const uint8_t *image, size_t image_len,
                                uint64_t *slots, size_t slots_len, size_t used, uint64_t entry, uint64_t sequence,
                                uint64_t parent_entry, uint64_t parent_sequence, uint64_t source, uint64_t offset,
                                uint64_t length, uint64_t *out, size_t out_len);

/* table_seed: the carved entries, MFT_ENTRY_WORDS words each as mft_carve_entries lists them, in their order, each where its key is
 * new; their names lie in the image. The used slots after it go to out, one word. Words past the last whole entry are left out.
 * Refuses: 5 out has no word; 9 used is above the slots; 7 a listed name's place passes the image; 6 the different new keys are
 * more than the slots that are left. */
uint32_t table_seed(const uint8_t *journal, size_t journal_len, const uint8_t *image, size_t image_len, uint64_t *slots,
                    size_t slots_len, size_t used, const uint64_t *entries, size_t entries_len, uint64_t *out, size_t out_len);

/* A carved entry as a struct, for who does not have the words of mft_carve_entries: where the entry stands in the image, its number and
 * sequence, where its name's UTF-16 lies in the image, and what it says of itself. */
struct mft_place {
    size_t offset;
    size_t length;
};

struct mft_carved_entry {
    size_t offset;
    uint64_t entry_number;
    uint16_t sequence_number;
    struct mft_place filename;
    uint64_t parent_entry;
    uint16_t parent_sequence;
    bool is_directory;
    bool is_in_use;
};

/* What seeding from structs answers: the used slots, those that came in where it is refused, and 0 or the number of the refusal. */
struct table_seeded {
    size_t used;
    uint32_t refusal;
};

/* table_seed_entries: table_seed for entries as structs, with the used slots in what it returns.
 * Refuses: 9, 7 and 6 as table_seed. */
struct table_seeded table_seed_entries(const uint8_t *journal, size_t journal_len, const uint8_t *image, size_t image_len,
                                       uint64_t *slots, size_t slots_len, size_t used, const struct mft_carved_entry *entries,
                                       size_t entries_len);

/* table_seed_indexed: table_seed in time that grows with the entries, where there are slots for the used ones and for all entries;
 * otherwise the different new keys are counted, which takes the entries times the slots. heads and nexts are words for an index of
 * the table, whatever they hold: as many heads as there are slots are a good number, and one next for each slot is needed. Where
 * there is no head, or fewer nexts than slots, the call does without an index, and does the same. What they hold after it is of no
 * use but to the call; a refused call leaves them alone.
 * Refuses: 5, 9, 7 and 6 as table_seed. */
uint32_t table_seed_indexed(const uint8_t *journal, size_t journal_len, const uint8_t *image, size_t image_len, uint64_t *slots,
                            size_t slots_len, size_t used, const uint64_t *entries, size_t entries_len, uint64_t *heads,
                            size_t heads_len, uint64_t *nexts, size_t nexts_len, uint64_t *out, size_t out_len);

/* What the names of a path hang under. */
enum path_end {
    PATH_END_ROOT = 0,       /* entry 5; the text begins with a full stop */
    PATH_END_UNKNOWN = 1,    /* a key that the table lacks; the text begins UNKNOWN(entry:sequence) */
    PATH_END_UNRESOLVED = 2  /* a key 257 names up; the text begins UNRESOLVED(entry:sequence) */
};

/* The words of a path's answer, by their index. */
enum path_word {
    PATH_NAMES = 0,        /* how many names it has, 0 to 257 */
    PATH_END = 1,          /* an enum path_end */
    PATH_END_ENTRY = 2,    /* that key, 0 and 0 for the root */
    PATH_END_SEQUENCE = 3,
    PATH_CHAIN_WORDS = 4,  /* a path without its text ends here */
    PATH_TEXT_LENGTH = 4,  /* in bytes */
    PATH_WORDS = 5
};

/* A name in a chain: source, offset, length. So many words of chain hold any chain. */
#define PATH_PLACE_WORDS 3
#define PATH_ENOUGH_CHAIN_WORDS (257 * PATH_PLACE_WORDS)

/* path_resolve: the path of a key: its names from the top down, with a backslash before each, behind what they hang under, as UTF-8
 * at the front of text. A name in an entry of the image with a sound array is that of the restored entry. The names' places go to
 * the front of chain, the top one first, PATH_PLACE_WORDS words each; chain is left alone where it has no room for all of them, and
 * may be empty. The PATH_WORDS words go to out.
 * Refuses: 1 journal or image is above the domain; 5 out has fewer than 5 words; 9 used is above the slots; 7 the name's place of a
 * used slot is outside its slice; 8 the text is too small. */
uint32_t path_resolve(const uint8_t *journal, size_t journal_len, const uint8_t *image, size_t image_len, const uint64_t *slots,
                      size_t slots_len, size_t used, uint64_t entry, uint64_t sequence, uint64_t *chain, size_t chain_len,
                      uint8_t *text, size_t text_len, uint64_t *out, size_t out_len);

/* path_chain: the same without the text; the PATH_CHAIN_WORDS words go to out.
 * Refuses: 1 as path_resolve; 5 out has fewer than 4 words; then 9 and 7 as path_resolve. */
uint32_t path_chain(const uint8_t *journal, size_t journal_len, const uint8_t *image, size_t image_len, const uint64_t *slots,
                    size_t slots_len, size_t used, uint64_t entry, uint64_t sequence, uint64_t *chain, size_t chain_len,
                    uint64_t *out, size_t out_len);

/* path_decode: the name at a place of the journal (source 0) or of the image (any other), as UTF-8 at the front of text; how many
 * bytes that is goes to out, one word. An odd last byte is dropped. A name in an entry of the image with a sound array is that of
 * the restored entry.
 * Refuses: 1 journal or image is above the domain; 5 out has no word; 7 the place is outside its slice; 8 the text is too
 * small. */
uint32_t path_decode(const uint8_t *journal, size_t journal_len, const uint8_t *image, size_t image_len, uint64_t source,
                     uint64_t offset, uint64_t length, uint8_t *text, size_t text_len, uint64_t *out, size_t out_len);

/* The words of a start's answer, by their index: the state, which the steps take and give back. */
enum rewind_start_word {
    REWIND_START_USED = 0,     /* the used slots, of both tables after a start */
    REWIND_START_POSITION = 1, /* how many records are behind, 0 after a start */
    REWIND_START_WORDS = 2
};

/* rewind_start: begins a rewind over records as a reader lists them, two words each, of which the offset in the journal counts.
 * They go into the table of slots from the last to the first, a record with the old name of a rename in place of a known entry, any
 * other where its key is new. The used slots are then copied to the front of forward, whatever it held. The REWIND_START_WORDS
 * words go to out. A slot for each used one and for each record is always enough, and then the keys need not be counted.
 * Refuses: 1 journal or image is above the domain; 5 out has fewer than 2 words; 9 used is above the slots; 12 at a listed offset
 * stands no record; 7 the name's place of a used slot is outside its slice; 6 the slots of either table are too few for the used
 * ones and the different new keys. */
uint32_t rewind_start(const uint8_t *journal, size_t journal_len, const uint8_t *image, size_t image_len, const size_t *records,
                      size_t records_len, uint64_t *slots, size_t slots_len, size_t used, uint64_t *forward, size_t forward_len,
                      uint64_t *out, size_t out_len);

/* The words of a step's answer, by their index. */
enum rewind_step_word {
    REWIND_STEP_KIND = 0,        /* 1 a record, 0 no record is left: then the state is the last that is written */
    REWIND_STEP_USED = 1,        /* the state after the step */
    REWIND_STEP_POSITION = 2,
    REWIND_STEP_NAMES = 3,       /* of the parent's path, as enum path_word has them */
    REWIND_STEP_END = 4,
    REWIND_STEP_END_ENTRY = 5,
    REWIND_STEP_END_SEQUENCE = 6,
    REWIND_CHAIN_STEP_WORDS = 7, /* a step without text ends here */
    REWIND_STEP_TEXT_LENGTH = 7, /* of the record's own path, in bytes */
    REWIND_STEP_WORDS = 8
};

/* rewind_next: the next record of a rewind, whose state is used and position, goes into forward, one with a new name or a creation
 * in place of a known entry, any other where its key is new. Its path, which is its parent's, a backslash and its name, goes to the
 * front of text as UTF-8, and the places of its parent's path to chain, as path_resolve leaves them; names in the image are restored
 * as there, and the record's own is taken from the journal as it is. The REWIND_STEP_WORDS words go to out, or the first three where
 * no record is left. A step that 8 refused has changed nothing: repeat it with a larger text, or call rewind_next_chain.
 * Every call tests every record that it is lent and every used slot: for many records call rewind_run.
 * Refuses: 1 journal or image is above the domain; 5 out has fewer than 8 words; 9 used is above the slots; 12 at a listed offset
 * stands no record; 7 the name's place of a used slot is outside its slice; 6 the record's key is new and no slot is left; 8 the
 * text is too small. */
uint32_t rewind_next(const uint8_t *journal, size_t journal_len, const uint8_t *image, size_t image_len, const size_t *records,
                     size_t records_len, size_t used, size_t position, uint64_t *forward, size_t forward_len, uint64_t *chain,
                     size_t chain_len, uint8_t *text, size_t text_len, uint64_t *out, size_t out_len);

/* rewind_next_chain: the same without the text, and it moves on likewise; the REWIND_CHAIN_STEP_WORDS words go to out, or three
 * where no record is left.
 * Refuses: 1 as rewind_next; 5 out has fewer than 7 words; then 9, 12, 7 and 6 as rewind_next. */
uint32_t rewind_next_chain(const uint8_t *journal, size_t journal_len, const uint8_t *image, size_t image_len,
                           const size_t *records, size_t records_len, size_t used, size_t position, uint64_t *forward,
                           size_t forward_len, uint64_t *chain, size_t chain_len, uint64_t *out, size_t out_len);

/* rewind_start_indexed: rewind_start in time that grows with the records, by way of an index as table_seed_indexed has it. The used
 * slots and the records together must not be more than the slots of either table for that: otherwise the different new keys are
 * counted, which takes the records times the slots.
 * Refuses: 1, 5, 9, 12, 7 and 6 as rewind_start. */
uint32_t rewind_start_indexed(const uint8_t *journal, size_t journal_len, const uint8_t *image, size_t image_len,
                              const size_t *records, size_t records_len, uint64_t *slots, size_t slots_len, size_t used,
                              uint64_t *forward, size_t forward_len, uint64_t *heads, size_t heads_len, uint64_t *nexts,
                              size_t nexts_len, uint64_t *out, size_t out_len);

/* The words of a run's answer, by their index. */
enum rewind_run_word {
    REWIND_RUN_STEPS = 0,    /* how many steps were made */
    REWIND_RUN_STOPPED = 1,  /* 0, or what stopped the run before its next step: USN_TABLE_FULL or USN_TEXT_FULL */
    REWIND_RUN_USED = 2,     /* the state after the last step that was made */
    REWIND_RUN_POSITION = 3,
    REWIND_RUN_WORDS = 4
};

/* rewind_run: many steps of rewind_next in one call, which tests once what they test each, by way of an index of forward as
 * table_seed_indexed has it. As many steps are made as ends has words, unless no record is left or a step stops the run: 6 the
 * record's key is new and no slot is left, 8 its path passes what is left of text. That step has changed nothing, and a further run
 * goes on with it. The steps' paths go to the front of text, one behind the other, and where each of them ends to ends; names in the
 * image are restored as rewind_next has them, and no chain is written. The REWIND_RUN_WORDS words go to out. Fewer steps than ends
 * has words, and not stopped: no record is left. Lend all records at every run, with the state that the run before gave.
 * Refuses, also where ends has no words: 1 journal or image, 5 out has fewer than 4 words, 9, 12 and 7 as rewind_next. */
uint32_t rewind_run(const uint8_t *journal, size_t journal_len, const uint8_t *image, size_t image_len, const size_t *records,
                    size_t records_len, size_t used, size_t position, uint64_t *forward, size_t forward_len, uint64_t *heads,
                    size_t heads_len, uint64_t *nexts, size_t nexts_len, uint64_t *ends, size_t ends_len, uint8_t *text,
                    size_t text_len, uint64_t *out, size_t out_len);

#ifdef __cplusplus
}
#endif

#endif
