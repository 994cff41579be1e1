/* Answers RDAP requests from a registry image. Every function is proved to write what its definition says, for any input.
 * The rules are in docs/SPECIFICATION.md and cited as S3.2; the format of an image is S4.
 *
 * Link with the archive crates/rdap_c/out/librdap_c.a, which `rt lib` makes in crates/rdap_c (x86-64, System V calls).
 * It needs memcpy and memset and nothing else.
 *
 * Memory. The caller owns every buffer, before, during and after a call. Nothing is allocated and no pointer is kept.
 * path, paths, image, range, changes and address are read only. A call writes to list, out, text, reply and part and to
 * nothing else.
 * - path, paths, image, range, changes, address, list, out and text may be NULL if their length is 0, and only then; nothing
 *   is read or written through them then.
 * - reply has 7 places, of rdap_prefixes and rdap_address_text 2, of rdap_fold 5, and part has 2; none may be NULL.
 * - list, reply and part are aligned as uint32_t is. list, out, text, reply and part may not overlap each other or what is
 *   read: no image is folded in place. What is read may overlap, and a range or an address may be a part of an image.
 * - Buffers have the lengths that are named, and no other thread writes to them during the call.
 *
 * Calls are pure: there is no state, the result depends on the arguments alone, and no call fails, waits or sets errno.
 * Calls may run in parallel, on the same image too, if each has its own list, out or text and reply or part.
 * A fold needs some 95 kB of stack, a relation some 90 kB, in a batch too, any other call some 40 kB.
 */
#ifndef RDAP_H
#define RDAP_H

#include <stddef.h>
#include <stdint.h>

#ifdef __cplusplus
extern "C" {
#endif

/* The places of a reply (S3.1) */
enum {
    RDAP_STATUS,   /* the HTTP status, see the table below */
    RDAP_REASON,   /* 0 answered, else why not */
    RDAP_KIND,     /* 1 ip, 2 autnum, 3 domain, 4 nameserver, 5 entity, 6 help, 7 pattern search, 8 relation;
                      0 under reasons 1 to 7 and 10, and always for a batch */
    RDAP_RELATION, /* 1 up, 2 down, 3 top, 4 bottom; 0 where the kind is not 8 */
    RDAP_COUNT,    /* under reason 0 the record numbers in the list, of a batch the paths answered;
                      under 9 the places that are needed, else 0 */
    RDAP_DEFECT,   /* under reason 2 what is wrong with the image, 1 to 7, else 0 */
    RDAP_PLACE,    /* under reason 2 the number of the record that has the defect, else 0 */
    RDAP_REPLY_PLACES
};

/* Reasons (S3.2); the first that applies is given.
 *
 *   1  414  path longer than 1,024 bytes
 *   2  500  image defective; defect and place say how
 *   3  400  no leading '/', a byte that RFC 3986 does not allow, or '%' without two hex digits
 *   4  501  query type, relation or parameter known to be unsupported
 *   5  501  an escape from %80 to %FF
 *   6  400  wrong number of segments, or a malformed part
 *   7  422  asterisk used in a way not supported
 *   8  404  lookup, up or top with no answer; the record number names no block
 *   9  507  the list has fewer places than there are records to report
 *  10  400  a text of more than 64 paths
 *   0  200  answered; the first count places of the list hold the record numbers, ascending, the rest are unchanged;
 *           of a batch see rdap_batch
 *
 * On every refusal the whole list is unchanged (S3.5). A list of 4,096 places is never too short,
 * nor is one of 4,100 places a path for a batch.
 *
 * Defects (S5.1): 1 image too long (above 262,144 bytes); 2 wrong start; 3 record cut short, unknown tag, or more than 4,096
 * records; 4 inner fields; 5 contents; 6 order; 7 overlap.
 */

/* Answers a path with its query, as "/ip/192.0.2.0", from an image (S2.1). */
void rdap_answer(const uint8_t *path, size_t path_len, const uint8_t *image, size_t image_len,
                 uint32_t *list, size_t list_len, uint32_t reply[7]);

/* Answers a text of at most 64 paths, separated by a line feed, from an image that is checked once (S2.5). A feed after the
 * last path makes one more, empty path; an empty text is one empty path. The text may have any length. A path that holds
 * a feed is cut there: to keep answers and paths in step, put a NUL in its place, which is refused as the feed would be.
 * For each path in turn the list gets status, reason, kind and count, then its record numbers: what rdap_answer gives with
 * a list of the places left after the four. A refused path has no record numbers, under reason 9 neither, where its count
 * is the places needed: the next answer stands right after its four. The batch stops where fewer than four places are
 * left; the places after the last answer are unchanged.
 * Its own reason is 0, 2 or 10. Under 0 its count is the number of paths answered, refused ones too; a list of fewer than
 * four places gives 200 with count 0. */
void rdap_batch(const uint8_t *paths, size_t paths_len, const uint8_t *image, size_t image_len,
                uint32_t *list, size_t list_len, uint32_t reply[7]);

/* Ask a relation of a record number, as a relation path would for that block's range; reasons 2, 8, 9 and 0
 * occur (S2.3). */
void rdap_up(const uint8_t *image, size_t image_len, uint32_t record,
             uint32_t *list, size_t list_len, uint32_t reply[7]);
void rdap_down(const uint8_t *image, size_t image_len, uint32_t record,
               uint32_t *list, size_t list_len, uint32_t reply[7]);
void rdap_top(const uint8_t *image, size_t image_len, uint32_t record,
              uint32_t *list, size_t list_len, uint32_t reply[7]);
void rdap_bottom(const uint8_t *image, size_t image_len, uint32_t record,
                 uint32_t *list, size_t list_len, uint32_t reply[7]);

/* The handle or the name of a record, as a part of the image: part[0] is its offset, part[1] its length.
 * Both are 0 if the image is defective or there is no such record (S2.2). */
void rdap_handle(const uint8_t *image, size_t image_len, uint32_t record, uint32_t part[2]);
void rdap_name(const uint8_t *image, size_t image_len, uint32_t record, uint32_t part[2]);

/* The range of a block, field 20 of its record (S4.3), alike: first and last, high byte first, 8 bytes or, of an IPv6
 * network, 32. Both are 0 too if the record is no block (S2.7).
 * An AS block gives 8 bytes as an IPv4 network does, and rdap_prefixes would read them as addresses. They are told apart
 * by the tag of the record, at image[part[0] - 6] if part[1] is not 0, or by what the path asked: kind 1 is answered
 * by networks, kind 2 by AS blocks, kinds 7 and 8 by either. */
void rdap_range(const uint8_t *image, size_t image_len, uint32_t record, uint32_t part[2]);

/* The tags of records (S4.3); the first three are blocks. */
enum {
    RDAP_IPV4_NETWORK = 0x10,
    RDAP_IPV6_NETWORK = 0x11,
    RDAP_AS_BLOCK = 0x12,
    RDAP_DOMAIN = 0x13,
    RDAP_NAMESERVER = 0x14,
    RDAP_ENTITY = 0x15
};

/* The tags of the fields of a record; a record that is no block has a handle and a name alone. */
enum {
    RDAP_FIELD_RANGE = 0x20,
    RDAP_FIELD_HANDLE = 0x21,
    RDAP_FIELD_NAME = 0x22,
    RDAP_FIELD_ACTIVE = 0x23
};

/* An out of so many bytes is never too short: IPv6 needs at most 254 prefixes, IPv4 at most 62 (310 bytes). */
enum { RDAP_PREFIXES_ROOM = 4318 };

/* Writes the prefixes that together hold exactly the addresses of a range, ascending; no shorter list does (S2.6).
 * range is first and last, high byte first, 8 bytes (IPv4) or 32 (IPv6), as rdap_range finds it: image + part[0], part[1].
 * An entry is the address in 4 or 16 bytes, then the prefix length in one byte.
 * It takes no path and gives a reason without a status: reply[0] is the reason, reply[1] the count.
 *
 *   6  range has another length, or first is above last; count is 0
 *   9  out is too short for all entries; count is the number of prefixes, not of bytes, that are needed
 *   0  count is the number of prefixes written; what follows their entries is unchanged
 *
 * Under 6 and 9 the whole out is unchanged. */
void rdap_prefixes(const uint8_t *range, size_t range_len, uint8_t *out, size_t out_len, uint32_t reply[2]);

/* A text of so many bytes is never too short: IPv6 needs at most 39, IPv4 at most 15. */
enum { RDAP_ADDRESS_TEXT_ROOM = 39 };

/* Writes the text of an address, as for links (S2.9). address has 4 bytes (IPv4) or 16 (IPv6), high byte first, as in an
 * entry of rdap_prefixes or in either half of a range.
 * IPv4 is four decimals, as 192.0.2.1. IPv6 is the form of RFC 5952: lower case, no leading zeros, the longest run of at
 * least two zero groups shortened to "::", the first of equal ones; a dotted tail, as in ::ffff:192.0.2.1, for
 * ::ffff:0:0/96 and for no other. No NUL follows the text.
 * It takes no path and gives a reason without a status: reply[0] is the reason, reply[1] the count.
 *
 *   6  address has another length; count is 0
 *   9  text is too short; count is the number of bytes needed
 *   0  count is the number of bytes written; what follows them is unchanged
 *
 * Under 6 and 9 the whole text is unchanged. */
void rdap_address_text(const uint8_t *address, size_t address_len, uint8_t *text, size_t text_len, uint32_t reply[2]);

/* The most bytes of an image, so that an out of as many is never too short for a fold, and of a change file. */
enum { RDAP_IMAGE_BYTES = 262144, RDAP_CHANGES_BYTES = 65536 };

/* The tags of changes (S4.8). A change file is a row of changes. Each is a field, as in an image: its tag, the length of its
 * contents in two bytes, high byte first, and its contents. An empty file has no change. */
enum {
    RDAP_ADD = 0x30,   /* holds a whole record: its tag, its length and its fields (S4.3) */
    RDAP_REMOVE = 0x31 /* holds the tag of a record, one byte, then its bare key: of a block the contents of its field 20,
                          of a domain or nameserver its name, of an entity its handle */
};

/* The places of the reply of rdap_fold */
enum {
    RDAP_FOLD_REASON, /* 0 folded, else why not */
    RDAP_FOLD_COUNT,  /* under reason 0 the bytes of the final image, under 9 the bytes that are needed, else 0 */
    RDAP_FOLD_DEFECT, /* under reasons 2 and 12 what is wrong, 1 to 7 (S5.1), else 0 */
    RDAP_FOLD_PLACE,  /* the number of the record that has the defect, under 2 in the image, under 12 in the final image;
                         else 0 */
    RDAP_FOLD_OFFSET, /* under reason 11 where in changes the tag of the change at fault stands, else 0 */
    RDAP_FOLD_REPLY_PLACES
};

/* Folds a change file into an image and writes the final image to out (S2.8). The changes apply in order, each to what the
 * changes before it made. Overlaps and the limits of an image are judged of the final image alone.
 * It takes no path and gives a reason without a status. The first that applies is given, in this order:
 *
 *   2  image defective; defect and place say how
 *  11  a change is malformed, removes a record that isn't there or adds one whose key is already there; offset is that of
 *      the first such change, and 0 if changes has more than RDAP_CHANGES_BYTES bytes
 *  12  the final image would be defective; defect and place say how: 1 too long, 3 more than 4,096 records, 7 overlap
 *   9  out is too short; count is the number of bytes needed
 *   0  folded; the first count bytes of out are the final image, which is sound, and the rest is unchanged
 *
 * Under every reason but 0 the whole out is unchanged. Records may have other numbers in the final image. */
void rdap_fold(const uint8_t *image, size_t image_len, const uint8_t *changes, size_t changes_len,
               uint8_t *out, size_t out_len, uint32_t reply[5]);

#ifdef __cplusplus
}
#endif

#endif
