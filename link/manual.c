/* Assembles and builds a small routine as a manual job through the library nazgwern, and prints its
   image as the program finish does. Its branch goes as far as a manual job lets it:

           abs   $t0, $t1
           bnez  $t0, far

   Then two refusals that only a manual job has: the build with far one word further, and the line
   sll $t0, $t1, 32. The same calls of another job are accepted, and give other words.
   Last come two lines for a Release 6 board: jr $ra, whose word is printed, and mflo $t0, which is
   refused. */
#include "nazgwern.h"

#include <inttypes.h>
#include <stdio.h>
#include <string.h>

enum { REGISTER = 3, INTEGER_LITERAL = 5, SYMBOL = 8, COMMA = 11 };
enum { MNEMONIC = 32, LABEL = 34, REGION = 35 };
enum { T0 = 8, T1 = 9, RA = 31, BASE = 0x00400000, FAR = 0x0042000c };

/* What this program puts into a list is far shorter than its array. */
struct list {
    size_t length;
    uint8_t bytes[256];
};

/* sll: Func (1) 0, encoding Sham (5); jr: Func 8, encoding Source (2); mflo: Func 18, encoding
   Destination (3). abs and bnez are pseudo-instructions. */
static const uint8_t descriptors[] = {
    11, 0, 33, 0, 1, 0,  5, 0, 0, 0, 0, 0, 's', 'l', 'l',
    10, 0, 33, 0, 1, 8,  2, 0, 0, 0, 0, 0, 'j', 'r',
    12, 0, 33, 0, 1, 18, 3, 0, 0, 0, 0, 0, 'm', 'f', 'l', 'o',
};

static struct list tokens;
static uint8_t data[64], pending[128], breakpoints[128];
static uint8_t counts[NAZGWERN_COUNTS_BYTES];
static uint8_t answer[NAZGWERN_ANSWER_BYTES];

static void put(struct list *list, uint64_t number, size_t size)
{
    for (; size > 0; size--) {
        list->bytes[list->length++] = number & 0xff;
        number >>= 8;
    }
}

static void put_text(struct list *list, const char *text)
{
    for (; *text != 0; text++)
        put(list, (uint8_t)*text, 1);
}

static uint32_t number_at(const uint8_t *bytes, size_t place)
{
    uint32_t number = 0;

    for (size_t i = 4; i > 0; i--)
        number = number << 8 | bytes[place + i - 1];

    return number;
}

static void put_head(struct list *list, size_t length, uint16_t kind)
{
    put(list, length, 2);
    put(list, kind, 2);
}

/* A token or a mnemonic with its text, and a token with a number; the location is zero. */
static void put_named(struct list *list, uint16_t kind, const char *name)
{
    put_head(list, 8 + strlen(name), kind);
    put(list, 0, 8);
    put_text(list, name);
}

static void token(uint16_t kind, uint64_t payload, size_t size)
{
    put_head(&tokens, 8 + size, kind);
    put(&tokens, 0, 8);
    put(&tokens, payload, size);
}

static int refused(void)
{
    printf("refused");
    for (size_t place = 0; place < 20; place += 4)
        printf(" %" PRIu32, number_at(answer, place));
    printf("\n");

    return 1;
}

typedef uint32_t line_call(const uint8_t *, size_t, const uint8_t *, size_t, const uint8_t *,
                           size_t, uint8_t *, size_t, uint8_t *, size_t, uint8_t *, size_t,
                           uint8_t *, size_t, uint32_t, uint16_t, uint32_t, uint8_t *, size_t);

static line_call *line = nazgwern_do_manual_instruction;

/* Emits the line of the tokens, which are then gone. */
static int emit(const char *name)
{
    struct list mnemonic = {0};

    put_named(&mnemonic, MNEMONIC, name);
    uint32_t number = line(
        tokens.bytes, tokens.length, mnemonic.bytes, mnemonic.length,
        descriptors, sizeof descriptors, data, sizeof data, pending, sizeof pending,
        breakpoints, sizeof breakpoints, counts, sizeof counts, 0, 0, BASE,
        answer, sizeof answer);
    tokens.length = 0;

    return number == 0 ? 0 : refused();
}

/* Builds what has been emitted, with far at this address, and prints the image. */
static int build(uint32_t far)
{
    struct list labels = {0}, entry = {0}, regions = {0};
    uint32_t length = number_at(counts, 0);

    put_head(&labels, 4 + 3, LABEL);
    put(&labels, far, 4);
    put_text(&labels, "far");
    put_head(&regions, 4 + length, REGION);
    put(&regions, BASE, 4);
    for (size_t place = 0; place < length; place++)
        put(&regions, data[place], 1);

    if (nazgwern_build_manual(labels.bytes, labels.length, entry.bytes, entry.length,
                              regions.bytes, regions.length, pending, number_at(counts, 4), answer,
                              sizeof answer) != 0)
        return refused();

    printf("entry %08" PRIx32 "\nregion 0 %08x\n", number_at(answer, 20), BASE);
    for (uint32_t offset = 0; offset < length; offset += 4)
        printf("%08" PRIx32 " %08" PRIx32 "\n", BASE + offset,
               number_at(regions.bytes, 8 + offset));

    return 0;
}

int main(void)
{
    token(REGISTER, T0, 1), token(COMMA, 0, 0), token(REGISTER, T1, 1);
    if (emit("abs") != 0)
        return 1;

    token(REGISTER, T0, 1), token(COMMA, 0, 0), put_named(&tokens, SYMBOL, "far");
    if (emit("bnez") != 0 || build(FAR) != 0)
        return 1;

    token(REGISTER, T0, 1), token(COMMA, 0, 0), token(REGISTER, T1, 1), token(COMMA, 0, 0);
    token(INTEGER_LITERAL, 32, 8);

    if (build(FAR + 4) == 0 || emit("sll") == 0)
        return 1;

    line = nazgwern_do_release_6_instruction;
    uint32_t place = number_at(counts, 0);
    token(REGISTER, RA, 1);
    if (emit("jr") != 0)
        return 1;
    printf("%08" PRIx32 "\n", number_at(data, place));

    token(REGISTER, T0, 1);
    return emit("mflo") != 0 ? 0 : 1;
}
