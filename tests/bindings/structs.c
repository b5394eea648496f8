/* Seeding from structs beside seeding from the flat list of the same entries: one entry, and one whose name passes the image. */
#include "volume_history.h"

#include <stdio.h>
#include <string.h>

enum { SLOTS = 2, WORDS = 7 * SLOTS };

static const uint8_t image[8] = {'a', 0, 'b', 0, 'c', 0, 'd', 0};

/* Whether both ways answer and leave the same. */
static bool alike(size_t name_offset, size_t name_length)
{
    const struct mft_carved_entry entry = {1024, 42, 3, {name_offset, name_length}, 5, 6, false, true};
    const uint64_t words[9] = {1024, 42, 3, name_offset, name_length, 5, 6, 0, 1};
    uint64_t flat[WORDS] = {0};
    uint64_t slots[WORDS] = {0};
    uint64_t used = 0;

    const uint32_t refusal = table_seed(NULL, 0, image, sizeof image, flat, WORDS, 0, words, 9, &used, 1);
    const struct table_seeded seeded = table_seed_entries(NULL, 0, image, sizeof image, slots, WORDS, 0, &entry, 1);
    return seeded.refusal == refusal && (refusal != 0 || seeded.used == used) && memcmp(flat, slots, sizeof flat) == 0;
}

int main(void)
{
    if (!alike(2, 4) || !alike(2, 8)) {
        puts("seeding from structs differs from seeding from the flat list");
        return 1;
    }
    return 0;
}
