/* prefixes PATH IMAGE: the CIDR prefixes of the networks that answer a path, as for a router's filter.
 * Writes a line for each prefix: the handle of its network, then the prefix. A refused path and an answer that is no IP network
 * (an AS block, a domain) are told on standard error, and nothing is written: the records of an answer are all networks or none is. */
#include "ask.h"

/* Writes the prefixes of a network; 0 if the record is none. */
static int print_prefixes(uint32_t record)
{
    uint8_t entries[RDAP_PREFIXES_ROOM], text[RDAP_ADDRESS_TEXT_ROOM];
    uint32_t handle[2], range[2], prefixed[2], written[2];

    rdap_range(image, length, record, range);
    if (range[1] == 0 || image[range[0] - 6] == RDAP_AS_BLOCK) /* its 8 bytes would be read as IPv4 */
        return 0;
    rdap_handle(image, length, record, handle);
    /* Neither is ever refused: the range of a sound image and its addresses, room for the most prefixes and the longest text. */
    rdap_prefixes(image + range[0], range[1], entries, sizeof entries, prefixed);
    size_t width = range[1] / 2;
    for (uint32_t i = 0; i < prefixed[1]; i++) {
        const uint8_t *entry = entries + i * (width + 1);
        rdap_address_text(entry, width, text, sizeof text, written);
        print_part(handle);
        printf(" %.*s/%d\n", (int)written[1], (const char *)text, entry[width]);
    }
    return 1;
}

int main(int argc, char **argv)
{
    if (!ask(argc, argv))
        return 2;
    if (reply[RDAP_REASON] != 0) {
        fprintf(stderr, "status %" PRIu32 ", reason %" PRIu32 "\n", reply[RDAP_STATUS], reply[RDAP_REASON]);
        return 1;
    }
    for (uint32_t i = 0; i < reply[RDAP_COUNT]; i++)
        if (!print_prefixes(list[i])) {
            fprintf(stderr, "record %" PRIu32 " is no IP network\n", list[i]);
            return 1;
        }
    return 0;
}
