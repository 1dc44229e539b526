/* Patches by steps through the library nazgwern, with lines between the steps: the scripts of
   the stored cases of patch_steps, from standard input, each after its length (vectors/make_patching
   says what a script is). Of each it prints what every call answers, and what is left at the end.

   A console does the same: it keeps the region list, the pendings, the breakpoints, the kept words
   and the state record, calls nazgwern_patch_step whenever it has time, and gives each typed line
   to nazgwern_patch_line, until a step has ended or is refused. */
#include "nazgwern.h"

#include <inttypes.h>
#include <stdbool.h>
#include <stdio.h>
#include <string.h>

enum { INPUT = 1 << 20, HELD = NAZGWERN_MOST_BYTES + 1, KEPT = 7280, MOST_TURNS = 4096 };
enum { REGIONS, PENDING, BREAKPOINTS, LENT };
enum { STEP = 0, LINE = 1, END = 2 };

struct list {
    size_t length;
    const uint8_t *bytes;
};

static uint8_t input[INPUT], lent[LENT][HELD], kept[KEPT], state[NAZGWERN_STATE_BYTES];
static size_t lengths[LENT];
static uint8_t answer[NAZGWERN_ANSWER_BYTES];

/* A number of so many bytes, and 0 where bytes of it are missing. */
static uint32_t number_in(struct list list, size_t place, size_t size)
{
    uint32_t number = 0;

    if (place + size > list.length)
        return 0;
    for (size_t i = size; i > 0; i--)
        number = number << 8 | list.bytes[place + i - 1];

    return number;
}

static struct list behind(struct list list, size_t size)
{
    size = size < list.length ? size : list.length;

    return (struct list){list.length - size, list.bytes + size};
}

/* The list that stands first, after its 4-byte count; `rest` is then what stands behind it. */
static struct list next(struct list *rest)
{
    size_t count = number_in(*rest, 0, 4);
    struct list found = behind(*rest, 4);

    found.length = count < found.length ? count : found.length;
    *rest = behind(*rest, 4 + count);

    return found;
}

static uint32_t told(size_t place)
{
    return number_in((struct list){sizeof answer, answer}, 4 * place, 4);
}

static uint32_t stated(size_t place)
{
    return number_in((struct list){sizeof state, state}, 4 * place, 4);
}

static void print_refusal(void)
{
    printf("refused %" PRIu32 " %" PRIu32 " %" PRIu32, told(0), told(1), told(2));
    if (told(0) == 9) /* the one refusal with a below zero */
        printf(" %" PRId32, (int32_t)told(3));
    else
        printf(" %" PRIu32, told(3));
    printf(" %" PRIu32 "\n", told(4));
}

static void step(uint32_t job, struct list labels, struct list entry)
{
    uint32_t number = (job == 0 ? nazgwern_patch_step : nazgwern_patch_step_manual)(
        labels.bytes, labels.length, entry.bytes, entry.length, lent[REGIONS], lengths[REGIONS],
        lent[PENDING], lengths[PENDING], kept, sizeof kept, state, sizeof state, answer,
        sizeof answer);

    if (number != 0)
        print_refusal();
    else if (told(3) == 0)
        printf("patched %" PRIu32 "\n", told(5));
    else
        printf("ended %08" PRIx32 "\n", told(5));
}

static void line(uint32_t job, struct list descriptors, struct list *script)
{
    struct list tokens = next(script), mnemonic = next(script);
    uint32_t number = (job == 0   ? nazgwern_patch_line
                       : job == 1 ? nazgwern_patch_manual_line
                                  : nazgwern_patch_release_6_line)(
        tokens.bytes, tokens.length, mnemonic.bytes, mnemonic.length, descriptors.bytes,
        descriptors.length, lent[REGIONS], lengths[REGIONS], lent[PENDING], lengths[PENDING],
        lent[BREAKPOINTS], lengths[BREAKPOINTS], state, sizeof state, number_in(*script, 0, 4),
        (uint16_t)number_in(*script, 4, 2), answer, sizeof answer);

    *script = behind(*script, 6);
    if (number != 0)
        print_refusal();
    else
        printf("accepted\n");
    printf("position %" PRIu32 "\n", told(5));
}

static void print_end(void)
{
    static const char *const names[LENT] = {"regions", "pending", "breakpoints"};

    printf("state %s\n", stated(4) == 0 ? "running" : stated(4) == 1 ? "ended" : "refused");
    printf("fills %" PRIu32 " %" PRIu32 " %" PRIu32 "\n", stated(0), stated(1), stated(2));
    printf("patches %" PRIu32 "\n", stated(3));
    for (size_t i = 0; i < LENT; i++) {
        printf("%s ", names[i]);
        for (size_t place = 0; place < lengths[i]; place++)
            printf("%02x", lent[i][place]);
        printf("\n");
    }
}

static void script(struct list rest)
{
    struct list labels = next(&rest), entry = next(&rest), descriptors = next(&rest);

    for (size_t i = 0; i < LENT; i++) {
        struct list list = next(&rest);
        lengths[i] = list.length < HELD ? list.length : HELD;
        memcpy(lent[i], list.bytes, lengths[i]);
    }
    uint32_t job = number_in(rest, 12, 1);
    if (job > 2) {
        printf("no such job\n");
        return;
    }
    memset(kept, 0, sizeof kept);
    memset(state, 0, sizeof state);
    for (size_t i = 0; i < LENT; i++) {
        uint32_t fill = number_in(rest, 4 * i, 4);
        for (size_t k = 0; k < 4; k++)
            state[4 * i + k] = (uint8_t)(fill >> 8 * k);
    }

    rest = behind(rest, 13);
    for (int turns = 0; turns < MOST_TURNS; turns++) {
        uint8_t turn = rest.length > 0 ? rest.bytes[0] : END;
        if (turn > LINE)
            break;
        rest = behind(rest, 1);
        if (turn == STEP)
            step(job, labels, entry);
        else
            line(job, descriptors, &rest);
    }
    print_end();
}

int main(void)
{
    struct list rest = {fread(input, 1, sizeof input, stdin), input};

    for (int number = 0; rest.length >= 4; number++) {
        printf("case %d\n", number);
        script(next(&rest));
    }

    return 0;
}
