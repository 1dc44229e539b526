/* Who uses this label: emits the lines of two files with an index, and prints for each label and
   each unknown name the pcs of the lines that use it. Then the seam file's loop is renamed to walk.
   The index is not that of the new labels, so the next line is refused; an index made afresh shows
   which lines still use the old name. Last, a line whose use has no room in the index. */
#include "instructions.h"
#include "nazgwern.h"

#include <inttypes.h>
#include <stdio.h>
#include <string.h>

enum { MNEMONIC = 32, LABEL = 34, OWNED_LABEL = 41 };
enum { SEAM = 1, DWELL = 2, FOR_ALL = 0, COMMIT = 0, BASE = 0x00400000 };

static const struct line {
    uint32_t source;
    const char *mnemonic, *operands;
} lines[] = {
    {SEAM, "addiu", "$t0, $t0, -1"}, {SEAM, "bne", "$t0, $zero, loop"},
    {SEAM, "b", "done"},             {DWELL, "la", "$a0, table + 4"},
    {DWELL, "bne", "$t0, 4, loop"},  {DWELL, "b", "done"},
    {DWELL, "li", "$t1, 300"},       {SEAM, "beq", "$t0, $t1, loop"},
};
enum { COUNT = sizeof lines / sizeof lines[0] };

static uint8_t data[256], pending[1024], breakpoints[512], index_bytes[1024];
static uint8_t counts[NAZGWERN_INDEXED_COUNTS_BYTES], answer[NAZGWERN_ANSWER_BYTES];

/* What this program puts into a list is far shorter than its array. */
struct list {
    size_t length;
    uint8_t bytes[256];
};

static void put(struct list *list, uint32_t number, size_t size)
{
    for (; size > 0; size--) {
        list->bytes[list->length++] = number & 0xff;
        number >>= 8;
    }
}

static void put_named(struct list *list, uint16_t kind, const char *name, uint32_t first,
                      uint32_t second, size_t second_size)
{
    put(list, (uint32_t)(4 + second_size + strlen(name)), 2);
    put(list, kind, 2);
    put(list, first, 4);
    put(list, second, second_size);
    for (; *name != 0; name++)
        put(list, (uint8_t)*name, 1);
}

static void put_label(struct list *list, const char *name, uint32_t address, uint32_t owner)
{
    put_named(list, owner == FOR_ALL ? LABEL : OWNED_LABEL, name, address, owner,
              owner == FOR_ALL ? 0 : 4);
}

static uint32_t number_at(const uint8_t *bytes, size_t place, size_t size)
{
    uint32_t number = 0;

    for (; size > 0; size--)
        number = number << 8 | bytes[place + size - 1];

    return number;
}

static void print_refusal(void)
{
    printf("refused");
    for (size_t place = 0; place < 20; place += 4)
        printf(" %" PRIu32, number_at(answer, place, 4));
    printf("\n");
}

static void emit(const struct line *line, const struct list *labels, size_t index_length)
{
    struct list mnemonic = {0}, tokens = {0};
    const char *text = line->operands;

    put_named(&mnemonic, MNEMONIC, line->mnemonic, line->source, 0, 4);
    nazgwern_read_text((const uint8_t *)text, strlen(text), line->source, tokens.bytes,
                       sizeof tokens.bytes, answer, sizeof answer);
    tokens.length = number_at(answer, 20, 4);
    if (nazgwern_do_indexed(tokens.bytes, tokens.length, mnemonic.bytes, mnemonic.length,
                            nazgwern_instructions, sizeof nazgwern_instructions, data, sizeof data,
                            pending, sizeof pending, breakpoints, sizeof breakpoints,
                            labels->bytes, labels->length, index_bytes, index_length, counts,
                            sizeof counts, 0, 0, BASE, COMMIT, answer, sizeof answer) != 0)
        print_refusal();
}

/* The pc of the pending with this number in the list. */
static uint32_t pc_of(uint32_t number)
{
    size_t place = 0;

    for (; number > 0; number--)
        place += 4 + number_at(pending, place, 2);

    return BASE + number_at(pending, place + 6, 4);
}

static void print_uses(void)
{
    uint32_t fill = number_at(counts, 12, 4);

    printf("index of %" PRIu32 " bytes\n", fill);
    for (size_t place = 0; place < fill; place += 4 + number_at(index_bytes, place, 2)) {
        const uint8_t *use = index_bytes + place;
        uint32_t count = number_at(use, 5, 2), owner = number_at(use, 7 + 2 * count, 4);
        int length = (int)(number_at(use, 0, 2) - 7 - 2 * count);

        printf("%.*s", length, (const char *)use + 11 + 2 * count);
        if (use[4] == 0)
            printf(", unknown in file %" PRIu32 ":", owner);
        else if (owner == 0xffffffff)
            printf(" for all:");
        else
            printf(" of file %" PRIu32 ":", owner);
        for (uint32_t i = 0; i < count; i++)
            printf(" %08" PRIx32, pc_of(number_at(use, 7 + 2 * i, 2)));
        printf("\n");
    }
}

int main(void)
{
    struct list labels = {0}, renamed = {0};

    put_label(&labels, "loop", BASE, SEAM);
    put_label(&labels, "loop", BASE + 12, DWELL);
    put_label(&labels, "done", BASE + 40, FOR_ALL);
    put_label(&renamed, "walk", BASE, SEAM);
    put_label(&renamed, "loop", BASE + 12, DWELL);
    put_label(&renamed, "done", BASE + 40, FOR_ALL);

    for (size_t i = 0; i < COUNT; i++)
        emit(&lines[i], &labels, sizeof index_bytes);
    print_uses();

    emit(&lines[0], &renamed, sizeof index_bytes);
    if (nazgwern_make_index(pending, sizeof pending, number_at(counts, 4, 4), renamed.bytes,
                            renamed.length, index_bytes, sizeof index_bytes, answer,
                            sizeof answer) != 0)
        print_refusal();
    memcpy(counts + 12, answer + 20, 4);
    print_uses();

    emit(&lines[1], &renamed, number_at(counts, 12, 4) + 1);

    return 0;
}
