/* Every function on the image of one AS block (12 to 15, handle A, name B), with and without room, and with NULL for what is empty.
 * Writes a line for each call, and one for the list, out or text where it matters. */
#include <inttypes.h>
#include <stdio.h>
#include <string.h>

#include "rdap.h"

static const uint8_t image[30] = {1, 0, 1, 1, 0x12, 0, 0x17, 0x20, 0, 8, 0, 0, 0, 12, 0, 0, 0, 15,
                                  0x21, 0, 1, 'A', 0x22, 0, 1, 'B', 0x23, 0, 1, 1};

static void line(const char *name, const uint32_t *numbers, int n)
{
    printf("%s", name);
    for (int i = 0; i < n; i++)
        printf(" %" PRIu32, numbers[i]);
    putchar('\n');
}

/* The reply of a batch, and a list of 16 places of which it is lent the first ones. */
static void batch(const char *name, const char *paths, size_t paths_len, size_t image_len, size_t places)
{
    uint32_t list[16];
    uint32_t reply[7];

    for (int i = 0; i < 16; i++)
        list[i] = 7;
    rdap_batch((const uint8_t *)paths, paths_len, image_len == 0 ? NULL : image, image_len,
               places == 0 ? NULL : list, places, reply);
    line(name, reply, 7);
    line("list", list, 16);
}

static void batches(void)
{
    const char *paths = "/autnum/12\n/autnum/16\n/autnums/rirSearch1/down/0-99";
    char feeds[64];

    memset(feeds, '\n', 64);
    batch("batch", paths, strlen(paths), 30, 16);
    batch("14 places", paths, strlen(paths), 30, 14);
    batch("13 places", paths, strlen(paths), 30, 13);
    batch("5 places", paths, strlen(paths), 30, 5);
    batch("4 places", paths, strlen(paths), 30, 4);
    batch("3 places", paths, strlen(paths), 30, 3);
    batch("no places", paths, strlen(paths), 30, 0);
    batch("a feed last", paths, 11, 30, 16);
    batch("no text", NULL, 0, 30, 16);
    batch("no text, no places", NULL, 0, 30, 0);
    batch("64 paths", feeds, 63, 30, 16);
    batch("65 paths", feeds, 64, 30, 16);
    batch("65 paths, no places", feeds, 64, 30, 0);
    batch("65 paths, cut image", feeds, 64, 29, 16);
    batch("cut image", paths, strlen(paths), 29, 16);
    batch("no image", paths, strlen(paths), 0, 16);
    batch("nothing", NULL, 0, 0, 0);
}

/* The reply of rdap_prefixes, and an out of 24 bytes of which it is lent the first ones. */
static void prefixes(const char *name, const uint8_t *range, size_t range_len, size_t room)
{
    uint8_t out[24];
    uint32_t bytes[24];
    uint32_t reply[2];

    memset(out, 7, 24);
    rdap_prefixes(range, range_len, room == 0 ? NULL : out, room, reply);
    line(name, reply, 2);
    for (int i = 0; i < 24; i++)
        bytes[i] = out[i];
    line("out", bytes, 24);
}

static void ranges(void)
{
    const uint8_t one_to_six[8] = {192, 0, 2, 1, 192, 0, 2, 6};
    const uint8_t turned[8] = {192, 0, 2, 6, 192, 0, 2, 1};
    const uint8_t zeros[33] = {0};
    uint32_t part[2];

    rdap_range(image, 30, 0, part);
    line("range", part, 2);
    prefixes("range of the AS block, read as IPv4", image + part[0], part[1], 24);
    rdap_range(image, 30, 1, part);
    line("range, no record", part, 2);
    rdap_range(image, 29, 0, part);
    line("range, cut image", part, 2);
    rdap_range(NULL, 0, 0, part);
    line("range, no image", part, 2);
    prefixes("prefixes", one_to_six, 8, 24);
    prefixes("20 bytes", one_to_six, 8, 20);
    prefixes("19 bytes", one_to_six, 8, 19);
    prefixes("no bytes", one_to_six, 8, 0);
    prefixes("first above last", turned, 8, 24);
    prefixes("first above last, no bytes", turned, 8, 0);
    prefixes("IPv6", zeros, 32, 24);
    prefixes("IPv6, 16 bytes", zeros, 32, 16);
    prefixes("a range of 7 bytes", one_to_six, 7, 24);
    prefixes("a range of 16 bytes", zeros, 16, 24);
    prefixes("a range of 33 bytes", zeros, 33, 24);
    prefixes("no range", NULL, 0, 24);
    prefixes("no range, no bytes", NULL, 0, 0);
}

/* The reply of rdap_address_text, and a text of 42 bytes of which it is lent the first ones. */
static void address_text(const char *name, const uint8_t *address, size_t address_len, size_t room)
{
    uint8_t text[42];
    uint32_t reply[2];

    memset(text, '_', 42);
    rdap_address_text(address, address_len, room == 0 ? NULL : text, room, reply);
    line(name, reply, 2);
    printf("text %.42s\n", (const char *)text);
}

static void address_texts(void)
{
    const uint8_t four[5] = {192, 0, 2, 1}, most_of_four[4] = {255, 255, 255, 255};
    const uint8_t runs[17] = {0x20, 1, 0x0D, 0xB8, 0, 0, 0, 0, 0, 1, 0, 0, 0, 0, 0, 1};
    const uint8_t full[16] = {0x20, 1, 0x1D, 0xB8, 0xAB, 0xCD, 0xEF, 0x12, 0x34, 0x56, 0x78, 0x9A, 0xBC, 0xDE, 0xF0, 0x12};
    const uint8_t mapped[16] = {0, 0, 0, 0, 0, 0, 0, 0, 0, 0, 0xFF, 0xFF, 192, 0, 2, 1};
    const uint8_t beside[16] = {0, 0, 0, 0, 0, 0, 0, 0, 0, 0, 0xFF, 0xFE, 192, 0, 2, 1};
    const uint8_t zeros[16] = {0};

    address_text("text of IPv4", four, 4, 42);
    address_text("9 bytes", four, 4, 9);
    address_text("8 bytes", four, 4, 8);
    address_text("no bytes", four, 4, 0);
    address_text("IPv4, 15 bytes", most_of_four, 4, 15);
    address_text("IPv4, 14 bytes", most_of_four, 4, 14);
    address_text("text of IPv6", runs, 16, 42);
    address_text("17 bytes", runs, 16, 17);
    address_text("16 bytes", runs, 16, 16);
    address_text("IPv6, 39 bytes", full, 16, RDAP_ADDRESS_TEXT_ROOM);
    address_text("IPv6, 38 bytes", full, 16, RDAP_ADDRESS_TEXT_ROOM - 1);
    address_text("a dotted tail", mapped, 16, 42);
    address_text("no dotted tail", beside, 16, 42);
    address_text("zeros, 2 bytes", zeros, 16, 2);
    address_text("zeros, 1 byte", zeros, 16, 1);
    address_text("zeros, no bytes", zeros, 16, 0);
    address_text("an address of 3 bytes", four, 3, 42);
    address_text("an address of 5 bytes", four, 5, 42);
    address_text("an address of 15 bytes", runs, 15, 42);
    address_text("an address of 17 bytes", runs, 17, 42);
    address_text("no address", NULL, 0, 42);
    address_text("no address, no bytes", NULL, 0, 0);
}

/* The reply of rdap_fold, and an out of 44 bytes of which it is lent the first ones. */
static void fold(const char *name, size_t image_len, const uint8_t *changes, size_t changes_len, size_t room)
{
    uint8_t out[44];
    uint32_t bytes[44];
    uint32_t reply[RDAP_FOLD_REPLY_PLACES];

    memset(out, 7, 44);
    rdap_fold(image_len == 0 ? NULL : image, image_len, changes_len == 0 ? NULL : changes, changes_len,
              room == 0 ? NULL : out, room, reply);
    line(name, reply, RDAP_FOLD_REPLY_PLACES);
    for (int i = 0; i < 44; i++)
        bytes[i] = out[i];
    line("out", bytes, 44);
}

/* An entity to add, twice, and the AS block to remove, twice. */
static void folds(void)
{
    const uint8_t added[28] = {RDAP_ADD, 0, 11, RDAP_ENTITY, 0, 8, RDAP_FIELD_HANDLE, 0, 1, 'E', RDAP_FIELD_NAME, 0, 1, 'N',
                               RDAP_ADD, 0, 11, RDAP_ENTITY, 0, 8, RDAP_FIELD_HANDLE, 0, 1, 'E', RDAP_FIELD_NAME, 0, 1, 'O'};
    const uint8_t removed[24] = {RDAP_REMOVE, 0, 9, RDAP_AS_BLOCK, 0, 0, 0, 12, 0, 0, 0, 15,
                                 RDAP_REMOVE, 0, 9, RDAP_AS_BLOCK, 0, 0, 0, 12, 0, 0, 0, 15};

    fold("fold, no changes", 30, NULL, 0, 44);
    fold("no changes, 30 bytes", 30, NULL, 0, 30);
    fold("no changes, 29 bytes", 30, NULL, 0, 29);
    fold("an entity added", 30, added, 14, 44);
    fold("added, 41 bytes", 30, added, 14, 41);
    fold("added, 40 bytes", 30, added, 14, 40);
    fold("added, no bytes", 30, added, 14, 0);
    fold("added twice", 30, added, 28, 44);
    fold("added, cut", 30, added, 13, 44);
    fold("added twice, cut", 30, added, 27, 44);
    fold("the block removed", 30, removed, 12, 44);
    fold("removed, 4 bytes", 30, removed, 12, 4);
    fold("removed, 3 bytes", 30, removed, 12, 3);
    fold("removed twice", 30, removed, 24, 44);
    fold("removed twice, no bytes", 30, removed, 24, 0);
}

/* What is wrong with a file as a whole, with the final image and with the image. */
static void folds_refused(void)
{
    static const uint8_t long_file[RDAP_CHANGES_BYTES + 1] = {RDAP_REMOVE, 0, 9, RDAP_AS_BLOCK, 0, 0, 0, 12, 0, 0, 0, 15};
    const uint8_t overlap[29] = {RDAP_ADD, 0, 26, RDAP_AS_BLOCK, 0, 23, RDAP_FIELD_RANGE, 0, 8, 0, 0, 0, 14, 0, 0, 0, 20,
                                 RDAP_FIELD_HANDLE, 0, 1, 'O', RDAP_FIELD_NAME, 0, 1, 'O', RDAP_FIELD_ACTIVE, 0, 1, 1};

    fold("removed, then another tag", 30, long_file, RDAP_CHANGES_BYTES, 44);
    fold("65,537 bytes", 30, long_file, RDAP_CHANGES_BYTES + 1, 44);
    fold("an overlap", 30, overlap, 29, 44);
    fold("an overlap, no bytes", 30, overlap, 29, 0);
    fold("cut image", 29, NULL, 0, 44);
    fold("cut image, 65,537 bytes", 29, long_file, RDAP_CHANGES_BYTES + 1, 44);
    fold("no image", 0, NULL, 0, 44);
    fold("no image, an overlap", 0, overlap, 29, 44);
    fold("nothing", 0, NULL, 0, 0);
}

int main(void)
{
    const uint8_t *path = (const uint8_t *)"/autnum/12";
    uint32_t list[2] = {7, 7};
    uint32_t reply[7];
    uint32_t part[2];

    rdap_answer(path, 10, image, 30, list, 2, reply);
    line("answer", reply, 7);
    line("list", list, 2);
    rdap_answer(path, 10, image, 30, NULL, 0, reply);
    line("no room", reply, 7);
    rdap_answer(NULL, 0, image, 30, NULL, 0, reply);
    line("no path", reply, 7);
    rdap_answer(path, 10, NULL, 0, NULL, 0, reply);
    line("no image", reply, 7);
    rdap_up(image, 30, 0, list, 2, reply);
    line("up", reply, 7);
    rdap_down(image, 30, 0, list, 2, reply);
    line("down", reply, 7);
    rdap_top(image, 30, 1, list, 2, reply);
    line("top", reply, 7);
    rdap_bottom(image, 30, 0, NULL, 0, reply);
    line("bottom", reply, 7);
    rdap_bottom(NULL, 0, 0, NULL, 0, reply);
    line("bottom, no image", reply, 7);
    rdap_handle(image, 30, 0, part);
    line("handle", part, 2);
    rdap_name(image, 30, 0, part);
    line("name", part, 2);
    rdap_name(image, 30, 1, part);
    line("no record", part, 2);
    rdap_handle(NULL, 0, 0, part);
    line("no image", part, 2);
    batches();
    ranges();
    address_texts();
    folds();
    folds_refused();
    return 0;
}
