/* Assembles and builds a small routine through the library nazgwern, and prints its image as the
   program finish does. Nothing is allocated: each buffer is an array of fixed size.

           li    $t0, 0x12345678
     loop: addiu $t0, $t0, -1
           bnez  $t0, loop */
#include "instructions.h"
#include "nazgwern.h"

#include <inttypes.h>
#include <stdio.h>
#include <string.h>

enum { REGISTER = 3, INTEGER_LITERAL = 5, SYMBOL = 8, MINUS = 10, COMMA = 11 };
enum { MNEMONIC = 32, LABEL = 34, REGION = 35 };
enum { T0 = 8, BASE = 0x00400000 };

/* What this program puts into a list is far shorter than its array. */
struct list {
    size_t length;
    uint8_t bytes[256];
};

static struct list tokens;
static uint8_t data[64], pending[128], breakpoints[128];
static uint8_t counts[NAZGWERN_COUNTS_BYTES];
static uint8_t answer[NAZGWERN_ANSWER_BYTES];

static void put(struct list *list, uint64_t number, size_t size)
{
    for (; size > 0; size--) {
        list->bytes[list->length++] = number & 0xff;
        number >>= 8;
    }
}

static void put_text(struct list *list, const char *text)
{
    for (; *text != 0; text++)
        put(list, (uint8_t)*text, 1);
}

/* The four-byte number at a place. */
static uint32_t number_at(const uint8_t *bytes, size_t place)
{
    uint32_t low = bytes[place] | bytes[place + 1] << 8;
    uint32_t high = bytes[place + 2] | bytes[place + 3] << 8;

    return low | high << 16;
}

static void put_head(struct list *list, size_t length, uint16_t kind)
{
    put(list, length, 2);
    put(list, kind, 2);
}

/* A token or a mnemonic: its location, here zero, and its text. */
static void put_named(struct list *list, uint16_t kind, const char *name)
{
    put_head(list, 8 + strlen(name), kind);
    put(list, 0, 8);
    put_text(list, name);
}

static void token(uint16_t kind, uint64_t payload, size_t size)
{
    put_head(&tokens, 8 + size, kind);
    put(&tokens, 0, 8);
    put(&tokens, payload, size);
}

static int refused(void)
{
    printf("refused");
    for (size_t place = 0; place < 20; place += 4)
        printf(" %" PRIu32, number_at(answer, place));
    printf("\n");

    return 1;
}

/* Emits the line of the tokens, which are then gone. */
static int emit(const char *name)
{
    struct list mnemonic = {0};

    put_named(&mnemonic, MNEMONIC, name);
    uint32_t number = nazgwern_do_instruction(
        tokens.bytes, tokens.length, mnemonic.bytes, mnemonic.length,
        nazgwern_instructions, sizeof nazgwern_instructions, data, sizeof data,
        pending, sizeof pending,
        breakpoints, sizeof breakpoints, counts, sizeof counts, 0, 0, BASE,
        answer, sizeof answer);
    tokens.length = 0;

    return number == 0 ? 0 : refused();
}

static int emit_routine(struct list *labels)
{
    token(REGISTER, T0, 1), token(COMMA, 0, 0), token(INTEGER_LITERAL, 0x12345678, 8);
    if (emit("li") != 0)
        return 1;

    /* loop: the region's address plus its data length */
    put_head(labels, 4 + 4, LABEL);
    put(labels, BASE + number_at(counts, 0), 4);
    put_text(labels, "loop");

    token(REGISTER, T0, 1), token(COMMA, 0, 0), token(REGISTER, T0, 1), token(COMMA, 0, 0);
    token(MINUS, 0, 0), token(INTEGER_LITERAL, 1, 8);
    if (emit("addiu") != 0)
        return 1;

    token(REGISTER, T0, 1), token(COMMA, 0, 0), put_named(&tokens, SYMBOL, "loop");

    return emit("bnez");
}

int main(void)
{
    struct list labels = {0}, entry = {0}, regions = {0};

    if (emit_routine(&labels) != 0)
        return 1;

    uint32_t length = number_at(counts, 0);
    put_head(&regions, 4 + length, REGION);
    put(&regions, BASE, 4);
    for (size_t place = 0; place < length; place++)
        put(&regions, data[place], 1);

    if (nazgwern_build(labels.bytes, labels.length, entry.bytes, entry.length, regions.bytes,
                       regions.length, pending, number_at(counts, 4), answer, sizeof answer) != 0)
        return refused();

    printf("entry %08" PRIx32 "\nregion 0 %08x\n", number_at(answer, 20), BASE);
    for (uint32_t offset = 0; offset < length; offset += 4)
        printf("%08" PRIx32 " %08" PRIx32 "\n", BASE + offset,
               number_at(regions.bytes, 8 + offset));

    return 0;
}
