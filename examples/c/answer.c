/* answer PATH IMAGE: answers one path from an image file.
 * Writes status, reason, kind, relation, count, defect and place, then a line for each record: number, handle, name. */
#include "ask.h"

int main(int argc, char **argv)
{
    if (!ask(argc, argv))
        return 2;
    for (int i = 0; i < RDAP_REPLY_PLACES; i++)
        printf(i == 0 ? "%" PRIu32 : " %" PRIu32, reply[i]);
    putchar('\n');
    if (reply[RDAP_REASON] != 0)
        return 1;
    for (uint32_t i = 0; i < reply[RDAP_COUNT]; i++) {
        uint32_t part[2];
        printf("%" PRIu32 " ", list[i]);
        rdap_handle(image, length, list[i], part);
        print_part(part);
        putchar(' ');
        rdap_name(image, length, list[i], part);
        print_part(part);
        putchar('\n');
    }
    return 0;
}
