/* Looks labels up through the library nazgwern and prints what each name stands for, with the count
   of name comparisons: a `loop` for all files, one of file 1 and one of file 2, and `main`. A list
   with a name twice is refused. */
#include "nazgwern.h"

#include <inttypes.h>
#include <stdio.h>
#include <string.h>

enum { LABEL = 34, OWNED_LABEL = 41 };
enum { FOR_ALL = 0, BASE = 0x00400000 };

/* What this program puts into a list is far shorter than its array. */
struct list {
    size_t length;
    uint8_t bytes[256];
};

static void put(struct list *list, uint32_t number, size_t size)
{
    for (; size > 0; size--) {
        list->bytes[list->length++] = number & 0xff;
        number >>= 8;
    }
}

static void put_label(struct list *list, const char *name, uint32_t address, uint32_t owner)
{
    put(list, (uint32_t)((owner == FOR_ALL ? 4 : 8) + strlen(name)), 2);
    put(list, owner == FOR_ALL ? LABEL : OWNED_LABEL, 2);
    put(list, address, 4);
    if (owner != FOR_ALL)
        put(list, owner, 4);
    for (; *name != 0; name++)
        put(list, (uint8_t)*name, 1);
}

static uint32_t number_at(const uint8_t *bytes, size_t place)
{
    uint32_t number = 0;

    for (size_t i = 4; i > 0; i--)
        number = number << 8 | bytes[place + i - 1];

    return number;
}

/* The name and its file, then the address or none, and the count; or the refusal as the programs
   print it. */
static void print(const struct list *labels, const char *name, uint32_t source)
{
    uint8_t answer[NAZGWERN_ANSWER_BYTES];

    printf("%s of %" PRIu32 ":", name, source);
    if (nazgwern_find_label(labels->bytes, labels->length, (const uint8_t *)name, strlen(name),
                            source, answer, sizeof answer) != 0) {
        printf(" refused");
        for (size_t place = 0; place < 20; place += 4)
            printf(" %" PRIu32, number_at(answer, place));
        printf("\n");
        return;
    }
    if (number_at(answer, 12) == 1)
        printf(" %08" PRIx32, number_at(answer, 20));
    else
        printf(" none");
    printf(", %" PRIu32 " compared\n", number_at(answer, 16));
}

int main(void)
{
    struct list labels = {0};

    put_label(&labels, "loop", 0x1000, FOR_ALL);
    put_label(&labels, "loop", BASE + 8, 1);
    put_label(&labels, "loop", BASE + 12, 2);
    put_label(&labels, "main", BASE + 4, FOR_ALL);
    for (uint32_t source = 0; source < 4; source++)
        print(&labels, "loop", source);
    print(&labels, "main", 1);
    print(&labels, "a", 1);

    put_label(&labels, "loop", BASE, 2);
    print(&labels, "main", 1);

    return 0;
}
