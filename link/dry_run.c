/* Runs the image of routine.c dry through the library nazgwern, and prints the outcomes as the
   program dry_run does: two turns of the loop, then a call that is refused. */
#include "nazgwern.h"

#include <inttypes.h>
#include <stdio.h>

enum { BASE = 0x00400000 };

/* lui $t0; ori $t0; addiu $t0, $t0, -1; bne $t0, $zero back to the addiu */
static const uint8_t regions[] = {
    20,   0,    35,   0,    0x00, 0x00, 0x40, 0x00, 0x34, 0x12, 0x08, 0x3c,
    0x78, 0x56, 0x08, 0x35, 0xff, 0xff, 0x08, 0x25, 0xfe, 0xff, 0x00, 0x15,
};

static uint8_t registers[NAZGWERN_REGISTERS_BYTES];
static uint8_t answer[NAZGWERN_ANSWER_BYTES];

static uint32_t number_at(const uint8_t *bytes, size_t place)
{
    uint32_t number = 0;

    for (size_t i = 4; i > 0; i--)
        number = number << 8 | bytes[place + i - 1];

    return number;
}

static void print_registers(void)
{
    printf("registers");
    for (size_t place = 0; place < sizeof registers; place += 4)
        printf(" %08" PRIx32, number_at(registers, place));
    printf("\n");
}

static void run(uint32_t pc, uint32_t allowance)
{
    static const char *const reasons[] = {"allowance", "pc", "word", "overflow"};

    if (nazgwern_dry_run(regions, sizeof regions, registers, sizeof registers, pc, allowance,
                         answer, sizeof answer) != 0) {
        printf("refused");
        for (size_t place = 0; place < 20; place += 4)
            printf(" %" PRIu32, number_at(answer, place));
        printf("\n");
        return;
    }
    printf("reason %s\n", reasons[number_at(answer, 12)]);
    printf("steps %" PRIu32 "\n", number_at(answer, 16));
    printf("pc %08" PRIx32 "\n", number_at(answer, 20));
}

int main(void)
{
    registers[0] = 9; /* what is given for $zero: a refused run leaves it, an accepted one has 0 */
    run(BASE + 2, 6);
    print_registers();
    run(BASE, 6);
    print_registers();

    return 0;
}
