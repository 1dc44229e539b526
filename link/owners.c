/* Builds two joined files through the library nazgwern, and prints the image as the program finish
   does. Each file has its own loop, the second has the entry main, and done is for both:

           the seam file, source 1           the dwell file, source 2

   loop:   addiu $t0, $t0, -1        main:   addiu $t0, $zero, 4
           bne   $t0, $zero, loop    loop:   addiu $t1, $t1, 1
           nop                               addiu $t0, $t0, -1
           beq   $zero, $zero, done          bne   $t0, $zero, loop
           nop                               nop
                                             beq   $zero, $zero, done
                                             nop
                                     done:   jr    $ra
                                             nop

   Then the same lines as one file's, in which loop stands twice: refusal 2. */
#include "nazgwern.h"

#include <inttypes.h>
#include <stdio.h>
#include <string.h>

enum { LABEL = 34, REGION = 35, PENDING = 36, ENTRY = 38, OWNED_LABEL = 41 };
enum { BRANCH = 0, NAMED = 1, SEAM = 1, DWELL = 2, BASE = 0x00400000 };

/* A line's source, its label, its word as nazgwern_do_instruction emits it, and the name to which
   it branches. */
static const struct line {
    uint32_t source;
    const char *label;
    uint32_t word;
    const char *to;
} lines[] = {
    {SEAM, "loop", 0x2508ffff, NULL},
    {SEAM, NULL, 0x15000000, "loop"},
    {SEAM, NULL, 0x00000000, NULL},
    {SEAM, NULL, 0x10000000, "done"},
    {SEAM, NULL, 0x00000000, NULL},
    {DWELL, "main", 0x24080004, NULL},
    {DWELL, "loop", 0x25290001, NULL},
    {DWELL, NULL, 0x2508ffff, NULL},
    {DWELL, NULL, 0x15000000, "loop"},
    {DWELL, NULL, 0x00000000, NULL},
    {DWELL, NULL, 0x10000000, "done"},
    {DWELL, NULL, 0x00000000, NULL},
    {DWELL, "done", 0x03e00008, NULL},
    {DWELL, NULL, 0x00000000, NULL},
};
enum { COUNT = sizeof lines / sizeof lines[0] };

/* What this program puts into a list is far shorter than its array. */
struct list {
    size_t length;
    uint8_t bytes[256];
};

static void put(struct list *list, uint64_t number, size_t size)
{
    for (; size > 0; size--) {
        list->bytes[list->length++] = number & 0xff;
        number >>= 8;
    }
}

static void put_head(struct list *list, size_t length, uint16_t kind)
{
    put(list, length, 2);
    put(list, kind, 2);
}

static void put_text(struct list *list, const char *text)
{
    for (; *text != 0; text++)
        put(list, (uint8_t)*text, 1);
}

static uint32_t number_at(const uint8_t *bytes, size_t place)
{
    uint32_t number = 0;

    for (size_t i = 4; i > 0; i--)
        number = number << 8 | bytes[place + i - 1];

    return number;
}

/* done is the label for all files, any other its own file's. */
static void put_label(struct list *list, const char *name, uint32_t address, uint32_t owner)
{
    int for_all = strcmp(name, "done") == 0;

    put_head(list, (for_all ? 4 : 8) + strlen(name), for_all ? LABEL : OWNED_LABEL);
    put(list, address, 4);
    if (!for_all)
        put(list, owner, 4);
    put_text(list, name);
}

/* A name without an added offset, as it is used in this source. */
static void put_used(struct list *list, const char *name, uint32_t source, uint32_t index)
{
    put(list, NAMED, 1);
    put(list, 0, 8);
    put(list, source, 4);
    put(list, index, 4);
    put_text(list, name);
}

static void put_branch(struct list *list, const char *to, uint32_t place, uint32_t source)
{
    put_head(list, 32 + strlen(to), PENDING);
    put(list, 0, 2);
    put(list, 4 * place, 4);
    put(list, source, 4);
    put(list, place, 4);
    put(list, BRANCH, 1);
    put_used(list, to, source, place);
}

/* Builds the lines, those of the dwell file as of this source, and prints the image. */
static int build(uint32_t dwell)
{
    struct list labels = {0}, entry = {0}, regions = {0}, pending = {0};
    uint8_t answer[NAZGWERN_ANSWER_BYTES];

    put_head(&entry, 17 + strlen("main"), ENTRY);
    put_used(&entry, "main", dwell, COUNT);
    put_head(&regions, 4 + 4 * COUNT, REGION);
    put(&regions, BASE, 4);
    for (uint32_t place = 0; place < COUNT; place++) {
        struct line line = lines[place];
        uint32_t source = line.source == DWELL ? dwell : line.source;
        if (line.label != NULL)
            put_label(&labels, line.label, BASE + 4 * place, source);
        if (line.to != NULL)
            put_branch(&pending, line.to, place, source);
        put(&regions, line.word, 4);
    }

    if (nazgwern_build(labels.bytes, labels.length, entry.bytes, entry.length, regions.bytes,
                       regions.length, pending.bytes, pending.length, answer,
                       sizeof answer) != 0) {
        printf("refused");
        for (size_t place = 0; place < 20; place += 4)
            printf(" %" PRIu32, number_at(answer, place));
        printf("\n");
        return 1;
    }

    printf("entry %08" PRIx32 "\nregion 0 %08x\n", number_at(answer, 20), BASE);
    for (uint32_t place = 0; place < COUNT; place++)
        printf("%08" PRIx32 " %08" PRIx32 "\n", BASE + 4 * place,
               number_at(regions.bytes, 8 + 4 * place));

    return 0;
}

int main(void)
{
    return build(DWELL) == 0 && build(SEAM) != 0 ? 0 : 1;
}
