/* What the examples share that take PATH and IMAGE and answer the path from the image file. */
#include "image.h"

#define PLACES 4096 /* records of an image */

static uint32_t list[PLACES];
static uint32_t reply[RDAP_REPLY_PLACES];

/* Fills image, list and reply; 0 if there is nothing to answer from. */
static int ask(int argc, char **argv)
{
    if (argc != 3) {
        fprintf(stderr, "usage: %s PATH IMAGE\n", argv[0]);
        return 0;
    }
    if (!read_image(argv[2])) {
        perror(argv[2]);
        return 0;
    }
    rdap_answer((const uint8_t *)argv[1], strlen(argv[1]), image, length, list, PLACES, reply);
    return 1;
}

static void print_part(const uint32_t part[2])
{
    fwrite(image + part[0], 1, part[1], stdout);
}
