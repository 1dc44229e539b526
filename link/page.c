/* Lays out a page for the wall through the library nazgwern and prints it: the image that owners.c
   builds, with the labels of its two files, and a region of data whose last word is a part word.
   The page is as long as its lines are many, so that a buffer can be made before the call; with
   one byte less the call is refused. */
#include "nazgwern.h"

#include <inttypes.h>
#include <stdio.h>
#include <string.h>

enum { LABEL = 34, REGION = 35, OWNED_LABEL = 41 };
enum { SEAM = 1, DWELL = 2, FOR_ALL = 0, BASE = 0x00400000, DATA = 0x10010000 };

static const uint32_t words[] = {
    0x2508ffff, 0x1500fffe, 0x00000000, 0x10000008, 0x00000000, 0x24080004, 0x25290001,
    0x2508ffff, 0x1500fffd, 0x00000000, 0x10000001, 0x00000000, 0x03e00008, 0x00000000,
};
static const uint8_t data[] = {0x2c, 0x01, 0, 0, 0xf8, 0xff, 0xff, 0xff, 4, 5, 6};
enum { COUNT = sizeof words / sizeof words[0] };
enum { LINES = 1 + COUNT + 1 + (sizeof data + 3) / 4, LINE = 73 };

/* What this program puts into a list is far shorter than its array. */
struct list {
    size_t length;
    uint8_t bytes[256];
};

static void put(struct list *list, uint32_t number, size_t size)
{
    for (; size > 0; size--) {
        list->bytes[list->length++] = number & 0xff;
        number >>= 8;
    }
}

static void put_head(struct list *list, size_t length, uint16_t kind)
{
    put(list, (uint32_t)length, 2);
    put(list, kind, 2);
}

static void put_label(struct list *list, const char *name, uint32_t address, uint32_t owner)
{
    put_head(list, (owner == FOR_ALL ? 4 : 8) + strlen(name), owner == FOR_ALL ? LABEL : OWNED_LABEL);
    put(list, address, 4);
    if (owner != FOR_ALL)
        put(list, owner, 4);
    for (; *name != 0; name++)
        put(list, (uint8_t)*name, 1);
}

static uint32_t number_at(const uint8_t *bytes, size_t place)
{
    uint32_t number = 0;

    for (size_t i = 4; i > 0; i--)
        number = number << 8 | bytes[place + i - 1];

    return number;
}

/* Prints the page, or the refusal as the program page does. */
static void print(const struct list *labels, const struct list *regions, size_t length)
{
    static uint8_t page[LINES * LINE];
    uint8_t answer[NAZGWERN_ANSWER_BYTES];

    if (nazgwern_lay_out(labels->bytes, labels->length, regions->bytes, regions->length, page,
                         length, answer, sizeof answer) == 0) {
        fwrite(page, 1, number_at(answer, 20), stdout);
        return;
    }
    printf("refused");
    for (size_t place = 0; place < 20; place += 4)
        printf(" %" PRIu32, number_at(answer, place));
    printf("\n");
}

int main(void)
{
    struct list labels = {0}, regions = {0};

    put_label(&labels, "loop", BASE, SEAM);
    put_label(&labels, "main", BASE + 0x14, DWELL);
    put_label(&labels, "loop", BASE + 0x18, DWELL);
    put_label(&labels, "done", BASE + 0x30, FOR_ALL);
    put_label(&labels, "stitches_of_the_long_hem", DATA, FOR_ALL);
    put_label(&labels, "table", DATA, FOR_ALL);
    put_label(&labels, "corners_of_the_patch_pocket", DATA + 8, FOR_ALL);

    put_head(&regions, 4 + 4 * COUNT, REGION);
    put(&regions, BASE, 4);
    for (size_t i = 0; i < COUNT; i++)
        put(&regions, words[i], 4);
    put_head(&regions, 4 + sizeof data, REGION);
    put(&regions, DATA, 4);
    for (size_t i = 0; i < sizeof data; i++)
        put(&regions, data[i], 1);

    print(&labels, &regions, LINES * LINE);
    print(&labels, &regions, LINES * LINE - 1);

    return 0;
}
