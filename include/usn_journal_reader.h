/* The proved reader of the NTFS change journal ($UsnJrnl:$J) as C functions: the record parsers, the scan, the carver, and the
 * window over a journal that arrives in pieces. libusn_journal_reader.a has them; libvolume_history.a has them too, with those of
 * volume_history.h. tools/build-libraries writes both archives to target/lib.
 *
 * A slice is a pointer and the count of its elements, not of its bytes. A call answers 0 and writes the words of its answer, in
 * the order that its paragraph gives, or it answers a refusal's number and writes nothing at all. Words of a lent slice past those
 * of the answer stay as they were. The tests that refuse run in the order in which the paragraph lists them: too few words for the
 * answer are refused directly behind 1, the domain, before every other test, and first by a call that has no 1.
 *
 * What a caller owes: each pointer is aligned for its type and valid over its count, and what a call writes to overlaps no other
 * slice of that call. Slices that are only read may overlap. An empty slice is the count 0 with any pointer, NULL too.
 * For everything else, any bytes and any numbers, the result is defined, and no call keeps state or a pointer after it returns, so
 * calls on different memory may run in different threads.
 *
 * Signed fields (the USN, the FILETIME) are handed out as the 64 bits of their two's complement: (int64_t)word. */
#ifndef USN_JOURNAL_READER_H
#define USN_JOURNAL_READER_H

#include <stddef.h>
#include <stdint.h>

#ifdef __cplusplus
extern "C" {
#endif

/* What a call answers: 0, or the number of the test that refused it. */
enum usn_refusal {
    USN_OK = 0,
    USN_ABOVE_DOMAIN = 1,     /* a slice is longer than USN_MAX_SLICE bytes, a stream longer than USN_MAX_STREAM */
    USN_SHORT_SLICE = 2,      /* the slice is shorter than the record's fixed part, 60 bytes in version 2, 76 in version 3 */
    USN_BAD_LENGTH = 3,       /* the record's length field is below the fixed part or above 65536 */
    USN_PAST_SLICE = 4,       /* the record's length passes the slice (version 2) */
    USN_LIST_FULL = 5,        /* a lent list is too short for the results or for the words of the answer */
    USN_TABLE_FULL = 6,       /* the used slots of a table and the different new keys are more than its slots */
    USN_BAD_PLACE = 7,        /* a name's place lies outside its slice */
    USN_TEXT_FULL = 8,        /* the text is too small */
    USN_BAD_NUMBERS = 9,      /* the numbers cannot be a window's, or a table's used slots are more than its slots */
    USN_TOO_MANY_BYTES = 10,  /* more bytes are given than are wanted */
    USN_BAD_BUFFER = 11,      /* the window's buffer is not USN_WINDOW_BYTES long */
    USN_NOT_A_RECORD = 12     /* no version 2 or 3 record that its parser accepts stands at the offset */
};

/* The domain: the longest slice and the longest stream, in bytes. */
#define USN_MAX_SLICE UINT64_C(1073741824)
#define USN_MAX_STREAM UINT64_C(1099511627776)

/* The words of a record, by their index. */
enum usn_record_word {
    USN_MFT_ENTRY = 0,              /* 48 bits */
    USN_MFT_SEQUENCE = 1,           /* 16 bits, 0 in version 3 */
    USN_PARENT_MFT_ENTRY = 2,
    USN_PARENT_MFT_SEQUENCE = 3,
    USN_USN = 4,                    /* signed */
    USN_SECONDS = 5,                /* since 1970; 0 for a time before it */
    USN_NANOSECONDS = 6,
    USN_REASON = 7,
    USN_FILE_ATTRIBUTES = 8,
    USN_SOURCE_INFO = 9,
    USN_SECURITY_ID = 10,
    USN_MAJOR_VERSION = 11,
    USN_NAME_OFFSET = 12,           /* in bytes; 0 where the name is empty */
    USN_NAME_LENGTH = 13,           /* in bytes, even; the name is UTF-16, little endian */
    USN_RECORD_LENGTH = 14,
    USN_MINOR_VERSION = 15,
    USN_FILETIME = 16,              /* signed, as stored */
    USN_FILE_REFERENCE_HIGH = 17,   /* the upper 64 bits of a version 3 reference, else 0 */
    USN_PARENT_REFERENCE_HIGH = 18,
    USN_RECORD_WORDS = 19
};

/* A listed record takes two words of a list: its offset and its length in bytes. */
#define USN_PLACE_WORDS 2

/* So many words of list are enough for any extract of n bytes, and then the records need not be counted before they are listed. */
#define USN_ENOUGH_WORDS(n) (((n) / 64 + 1) * USN_PLACE_WORDS)

/* The reasons that decide in a rewind. */
#define USN_REASON_FILE_CREATE UINT32_C(0x00000100)
#define USN_REASON_RENAME_OLD_NAME UINT32_C(0x00001000)
#define USN_REASON_RENAME_NEW_NAME UINT32_C(0x00002000)

/* usn_parse_record_v2: the version 2 record that data begins with, as USN_RECORD_WORDS words; the version field is not looked at.
 * The name's place counts from the start of data and may lie anywhere in it; a name that passes data is empty.
 * Refuses: 1 data is above the domain; 5 fewer than 19 words are lent; 2 data is shorter than 60 bytes; 3 the length field is
 * outside 60..65536; 4 that length passes data. */
uint32_t usn_parse_record_v2(const uint8_t *data, size_t data_len, uint64_t *words, size_t words_len);

/* usn_parse_record_v3: the same for version 3, with references of 128 bits and no sequences.
 * Refuses: 1 data is above the domain; 5 fewer than 19 words are lent; 2 data is shorter than 76 bytes; 3 the length field is
 * outside 76..65536. A length that passes data is not refused. */
uint32_t usn_parse_record_v3(const uint8_t *data, size_t data_len, uint64_t *words, size_t words_len);

/* usn_listed_record: the record at an offset of an extract, as its version field and its length field say, as USN_RECORD_WORDS
 * words. The name's place counts from the record: add offset where the name is not empty. Any offset may be asked for, and the
 * extract may be above the domain.
 * Refuses: 5 fewer than 19 words are lent; 12 fewer than 8 bytes are left, the record passes the end, its version is neither 2 nor
 * 3, or its parser refuses it. */
uint32_t usn_listed_record(const uint8_t *extract, size_t extract_len, size_t offset, uint64_t *words, size_t words_len);

/* usn_parse_journal: the scan of an extract. For each version 2 and 3 record, in order, its offset and its length go to list, two
 * words; how many they are goes to out, one word. usn_listed_record then gives the fields of each.
 * Refuses: 1 the extract is above the domain; 5 out has no word, or list fewer than two for each record. */
uint32_t usn_parse_journal(const uint8_t *extract, size_t extract_len, size_t *list, size_t list_len, uint64_t *out,
                           size_t out_len);

/* The words of a carving's answer, by their index. */
enum usn_carving_word {
    USN_CARVING_BYTES_SCANNED = 0,
    USN_CARVING_CANDIDATES_EXAMINED = 1, /* the sum of the three below */
    USN_CARVING_RECORDS_CARVED = 2,
    USN_CARVING_REJECTED_TIMESTAMP = 3,
    USN_CARVING_REJECTED_STRUCTURE = 4,
    USN_CARVING_WORDS = 5
};

/* usn_carve_records: the version 2 and 3 records in raw bytes, wherever one stands at a multiple of 8. For each its offset and its
 * length go to list, two words; the USN_CARVING_WORDS counters go to out.
 * Refuses: 1 the extract is above the domain; 5 out has fewer than 5 words, or list fewer than two for each record. */
uint32_t usn_carve_records(const uint8_t *extract, size_t extract_len, size_t *list, size_t list_len, uint64_t *out,
                           size_t out_len);

/* The length of a window's buffer. */
#define USN_WINDOW_BYTES 65536

/* The words of a window, by their index. A caller keeps them and need not look at them. */
enum usn_reader_word {
    USN_READER_START = 0,
    USN_READER_POSITION = 1,
    USN_READER_END = 2,
    USN_READER_HELD = 3,
    USN_READER_TOTAL = 4,
    USN_READER_ENDED = 5, /* 1 where it has ended, else 0 */
    USN_READER_WORDS = 6
};

/* The first word of a window's answer. */
enum usn_reading {
    USN_READING_END = 0,    /* no record is left */
    USN_READING_WANTS = 1,  /* bytes are wanted: word 1 says from which offset of the journal on, word 2 how many */
    USN_READING_RECORD = 2  /* a record: word 1 is its offset in the journal, word 2 its length, its 19 words follow */
};

/* The words that an answer of the window may take. */
#define USN_READING_WORDS (3 + USN_RECORD_WORDS)

/* usn_reader_new: a window over a journal of total bytes, as USN_READER_WORDS words of reader. The two calls below take these
 * words and leave those of the window after the call. A total above USN_MAX_STREAM is refused by them, not here.
 * Refuses: 5 reader has fewer than 6 words. */
uint32_t usn_reader_new(uint64_t total, uint64_t *reader, size_t reader_len);

/* usn_reader_next: the next record, what is wanted before there can be one, or the end. out takes 22 words for a record, the
 * name's place counted from the start of the buffer, and else 3: 1, from where on bytes are wanted, how many; or 0, 0, 0. The bytes
 * wanted may begin before the end of those given so far: a caller that reads a file seeks. The buffer is the caller's and has to
 * come back as the window left it.
 * Refuses: 5 reader has fewer than 6 words, so that no window can be read; 1 the total is above USN_MAX_STREAM; 5 out has fewer
 * than 22 words; 11 the buffer is not USN_WINDOW_BYTES long; 9 the words of reader cannot be a window's. */
uint32_t usn_reader_next(uint64_t *reader, size_t reader_len, const uint8_t *buffer, size_t buffer_len, uint64_t *out,
                         size_t out_len);

/* usn_reader_give: takes the next bytes of the journal into the buffer, behind those that were given for this refill; as few as
 * one byte at a time will do. out takes 3 words: 1, from where on bytes are still wanted, how many (0 where none are); or 0, 0, 0
 * at the end. No bytes given while some are wanted ends the reading for good; given while none are wanted they change nothing.
 * Refuses: as usn_reader_next, and then 10 more bytes are given than are wanted. */
uint32_t usn_reader_give(uint64_t *reader, size_t reader_len, uint8_t *buffer, size_t buffer_len, const uint8_t *bytes,
                         size_t bytes_len, uint64_t *out, size_t out_len);

#ifdef __cplusplus
}
#endif

#endif
