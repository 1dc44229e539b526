/* Assembles and builds the routine of routine.c from its text, and prints what routine.c prints.
   The list that nazgwern_read_text writes goes to nazgwern_do_instruction as it stands, each line
   from the position behind its mnemonic on. */
#include "nazgwern.h"

#include <inttypes.h>
#include <stdio.h>
#include <string.h>

enum { COMMENT = 0, SYMBOL = 8, COLON = 12, NEW_LINE = 13, NONE = 0xffff };
enum { MNEMONIC = 32, LABEL = 34, REGION = 35 };
enum { BASE = 0x00400000, SOURCE = 7 };

static const char text[] = "# one seam\n"
                           "        li    $t0, 0x12345678\n"
                           "loop:   addiu $t0, $t0, -1      # a step\n"
                           "\n"
                           "        bnez  $t0, loop\n";

/* addiu: Op 9, encoding Immediate (7), alternative Func (1) 33. */
static const uint8_t descriptors[] = {
    13, 0, 33, 0, 0, 9, 7, 0, 0, 1, 1, 33, 'a', 'd', 'd', 'i', 'u',
};

static uint8_t tokens[1024], data[64], pending[128], breakpoints[128];
static uint8_t counts[NAZGWERN_COUNTS_BYTES], answer[NAZGWERN_ANSWER_BYTES];
static uint8_t labels[128], regions[128];
static size_t tokens_length, labels_length, regions_length;

static uint32_t number_at(const uint8_t *bytes, size_t place, size_t size)
{
    uint32_t number = 0;

    for (; size > 0; size--)
        number = number << 8 | bytes[place + size - 1];

    return number;
}

static void put(uint8_t *bytes, uint32_t number, size_t size)
{
    for (size_t i = 0; i < size; i++, number >>= 8)
        bytes[i] = number & 0xff;
}

/* The place of a token, which is the list's length where there is none. */
static size_t place_of(uint32_t position)
{
    size_t place = 0;

    for (; position > 0 && place < tokens_length; position--)
        place += 4 + number_at(tokens, place, 2);

    return place;
}

static uint32_t kind_of(uint32_t position)
{
    size_t place = place_of(position);

    return place < tokens_length ? number_at(tokens, place + 2, 2) : NONE;
}

static int refused(void)
{
    printf("refused");
    for (size_t place = 0; place < 20; place += 4)
        printf(" %" PRIu32, number_at(answer, place, 4));
    printf("\n");

    return 1;
}

/* A label record: the address that the next word has, and the Symbol's bytes. */
static void put_label(size_t symbol)
{
    uint32_t length = number_at(tokens, symbol, 2) - 8;

    put(labels + labels_length, 4 + length, 2);
    put(labels + labels_length + 2, LABEL, 2);
    put(labels + labels_length + 4, BASE + number_at(counts, 0, 4), 4);
    memcpy(labels + labels_length + 8, tokens + symbol + 12, length);
    labels_length += 8 + length;
}

/* Emits the line whose mnemonic is that Symbol. Its record is a mnemonic's but for the kind. */
static int emit(uint32_t *position)
{
    size_t symbol = place_of(*position), length = 4 + number_at(tokens, symbol, 2);
    uint8_t mnemonic[128];

    memcpy(mnemonic, tokens + symbol, length);
    put(mnemonic + 2, MNEMONIC, 2);
    if (nazgwern_do_instruction(tokens, tokens_length, mnemonic, length, descriptors,
                                sizeof descriptors, data, sizeof data, pending, sizeof pending,
                                breakpoints, sizeof breakpoints, counts, sizeof counts,
                                *position + 1, 0, BASE, answer, sizeof answer) != 0)
        return refused();
    *position = number_at(answer, 20, 4);

    return 0;
}

static int emit_lines(void)
{
    for (uint32_t position = 0; kind_of(position) != NONE;) {
        uint32_t kind = kind_of(position);
        if (kind == NEW_LINE || kind == COMMENT) {
            position++;
        } else if (kind == SYMBOL && kind_of(position + 1) == COLON) {
            put_label(place_of(position));
            position += 2;
        } else if (emit(&position) != 0) {
            return 1;
        }
    }

    return 0;
}

int main(void)
{
    if (nazgwern_read_text((const uint8_t *)text, sizeof text - 1, SOURCE, tokens, sizeof tokens,
                           answer, sizeof answer) != 0)
        return refused();
    tokens_length = number_at(answer, 20, 4);
    if (emit_lines() != 0)
        return 1;

    uint32_t length = number_at(counts, 0, 4);
    put(regions, 4 + length, 2);
    put(regions + 2, REGION, 2);
    put(regions + 4, BASE, 4);
    memcpy(regions + 8, data, length);
    regions_length = 8 + length;
    if (nazgwern_build(labels, labels_length, tokens, 0, regions, regions_length, pending,
                       number_at(counts, 4, 4), answer, sizeof answer) != 0)
        return refused();

    printf("entry %08" PRIx32 "\nregion 0 %08x\n", number_at(answer, 20, 4), BASE);
    for (uint32_t offset = 0; offset < length; offset += 4)
        printf("%08" PRIx32 " %08" PRIx32 "\n", BASE + offset, number_at(regions, 8 + offset, 4));

    return 0;
}
