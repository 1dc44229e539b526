/* Writes a macro out: the body and the line that calls it are read from text, and the kinds of the
   tokens that are written are printed with their locations. Then a call with too few arguments. */
#include "nazgwern.h"

#include <inttypes.h>
#include <stdio.h>
#include <string.h>

enum { MACRO = 40, LINES = 7, BODY = 8 };

static uint8_t tokens[1024], macros[1024], out[1024], answer[NAZGWERN_ANSWER_BYTES];

static uint32_t number_at(const uint8_t *bytes, size_t place, size_t size)
{
    uint32_t number = 0;

    for (; size > 0; size--)
        number = number << 8 | bytes[place + size - 1];

    return number;
}

/* The tokens of a text; how many bytes they have. */
static size_t read(const char *text, uint32_t source, uint8_t *list, size_t room)
{
    if (nazgwern_read_text((const uint8_t *)text, strlen(text), source, list, room, answer,
                           sizeof answer) != 0)
        return 0;

    return number_at(answer, 20, 4);
}

/* seam, with the parameters walk and lift. */
static size_t define(const char *body)
{
    static const uint8_t head[] = {4, 's', 'e', 'a', 'm', 2, 4, 'w', 'a', 'l', 'k', 4, 'l', 'i', 'f', 't'};
    size_t length = sizeof head + read(body, BODY, macros + 4 + sizeof head, 900);

    memcpy(macros + 4, head, sizeof head);
    macros[0] = length & 0xff, macros[1] = (uint8_t)(length >> 8), macros[2] = MACRO;

    return 4 + length;
}

static void write_out(const char *text)
{
    size_t defined = define("addiu %walk,%walk,8\naddiu %lift,%lift,1 # down");
    size_t given = read(text, LINES, tokens, sizeof tokens);

    if (nazgwern_write_out(tokens, given, macros, defined, out, sizeof out, answer, sizeof answer)) {
        printf("refused");
        for (size_t place = 0; place < 20; place += 4)
            printf(" %" PRIu32, number_at(answer, place, 4));
        printf("\n");
        return;
    }

    uint32_t fill = number_at(answer, 20, 4);
    printf("written %" PRIu32 "\n", fill);
    for (size_t place = 0; place < fill; place += 4 + number_at(out, place, 2))
        printf("%2" PRIu32 " at %" PRIu32 " of %" PRIu32 "\n", number_at(out, place + 2, 2),
               number_at(out, place + 8, 4), number_at(out, place + 4, 4));
}

int main(void)
{
    write_out("left: seam $t0,$t1 # left\nnop\n");
    write_out("seam $t0");

    return 0;
}
