/* What all examples share: an image file is read. */
#include <inttypes.h>
#include <stdio.h>
#include <string.h>

#include "rdap.h"

static uint8_t image[RDAP_IMAGE_BYTES + 1]; /* one more, so that an image that is too long is seen */
static size_t length;

static int read_image(const char *name)
{
    FILE *file = fopen(name, "rb");
    if (file == NULL)
        return 0;
    length = fread(image, 1, sizeof image, file);
    int sound = !ferror(file);
    fclose(file);
    return sound;
}
