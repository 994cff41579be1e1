/* rename HANDLE NAME IMAGE: gives an entity another name, by a change file that removes the entity and adds it again.
 * Writes the bytes of the final image to standard output. A refusal is told on standard error, and nothing is written. */
#include "image.h"

#define TEXT 64 /* bytes of a handle or of a name */

static uint8_t final[RDAP_IMAGE_BYTES];

/* Writes a field and gives its end. */
static uint8_t *put(uint8_t *at, uint8_t tag, const void *contents, size_t size)
{
    at[0] = tag;
    at[1] = (uint8_t)(size >> 8);
    at[2] = (uint8_t)size;
    memcpy(at + 3, contents, size);
    return at + 3 + size;
}

/* Writes the two changes and gives their end. */
static uint8_t *put_changes(uint8_t *at, const char *handle, const char *name)
{
    uint8_t key[1 + TEXT] = {RDAP_ENTITY}, fields[2 * (3 + TEXT)], record[3 + sizeof fields];

    memcpy(key + 1, handle, strlen(handle));
    at = put(at, RDAP_REMOVE, key, 1 + strlen(handle));
    uint8_t *end = put(fields, RDAP_FIELD_HANDLE, handle, strlen(handle));
    end = put(end, RDAP_FIELD_NAME, name, strlen(name));
    end = put(record, RDAP_ENTITY, fields, (size_t)(end - fields));
    return put(at, RDAP_ADD, record, (size_t)(end - record));
}

int main(int argc, char **argv)
{
    uint8_t changes[256]; /* the two take at most 208 */
    uint32_t folded[RDAP_FOLD_REPLY_PLACES];

    if (argc != 4 || strlen(argv[1]) > TEXT || strlen(argv[2]) > TEXT) {
        fprintf(stderr, "usage: %s HANDLE NAME IMAGE, at most %d bytes of handle and name each\n", argv[0], TEXT);
        return 2;
    }
    if (!read_image(argv[3])) {
        perror(argv[3]);
        return 2;
    }
    uint8_t *end = put_changes(changes, argv[1], argv[2]);
    rdap_fold(image, length, changes, (size_t)(end - changes), final, sizeof final, folded);
    if (folded[RDAP_FOLD_REASON] != 0) {
        fprintf(stderr, "reason %" PRIu32 ", defect %" PRIu32 ", place %" PRIu32 ", offset %" PRIu32 "\n",
                folded[RDAP_FOLD_REASON], folded[RDAP_FOLD_DEFECT], folded[RDAP_FOLD_PLACE], folded[RDAP_FOLD_OFFSET]);
        return 1;
    }
    return fwrite(final, 1, folded[RDAP_FOLD_COUNT], stdout) == folded[RDAP_FOLD_COUNT] ? 0 : 2;
}
