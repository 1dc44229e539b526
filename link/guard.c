/* Makes generated calls of each entry with every buffer between pages that cannot be touched, and
   lists that are only read in pages that cannot be written, so that an access outside a buffer, or
   a write to such a list, ends the program. After each call it compares every byte: of a refused
   call all but the answer's, and of an accepted one all that may not change.

   A buffer ends where its pages end, or starts where they start, by chance; on its other side
   stand some marked bytes, which no call may change either.

   Each entry is one function, which makes one call; `entries` below lists them.
   Usage: guard SEED */
#define _GNU_SOURCE
#include "nazgwern.h"

#include <signal.h>
#include <stdbool.h>
#include <stdio.h>
#include <stdlib.h>
#include <string.h>
#include <sys/mman.h>
#include <unistd.h>

enum { PAGE = 4096, ROOM = 294 * PAGE, EDGE = 64, MARK = 0xa5, REFUSALS = 30 };
enum { PSEUDOS = 29, ENCODINGS = 21, NAMES = 4 };

/* A letter stands for an operand: r and f registers, v a register or number, i a number, c a shift
   amount or condition code, s a label, a an offset before b, a register in brackets. */
static const char *const pseudos[PSEUDOS][2] = {
    {"nop", ""},     {"abs", "rr"},   {"blt", "rvs"},  {"bgt", "rvs"},  {"ble", "rvs"},
    {"bge", "rvs"},  {"bltu", "rvs"}, {"bgtu", "rvs"}, {"bleu", "rvs"}, {"bgeu", "rvs"},
    {"sge", "rrv"},  {"sgt", "rrv"},  {"sle", "rrv"},  {"sgeu", "rrv"}, {"sgtu", "rrv"},
    {"sleu", "rrv"}, {"beqz", "rs"},  {"bnez", "rs"},  {"seq", "rrv"},  {"sne", "rrv"},
    {"neg", "rr"},   {"negu", "rr"},  {"not", "rr"},   {"li", "ri"},    {"la", "rs"},
    {"move", "rr"},  {"b", "s"},      {"subi", "rri"}, {"subiu", "rri"},
};
static const char *const encodings[ENCODINGS] = {
    "rrv", "rrr", "r",   "r",   "rrv", "rrc", "rs", "rri", "ri",  "s",  "rvs",
    "rs",  "",    "rab", "fab", "fff", "ff",  "ffc", "cff", "fr", "cs",
};

/* The last is as long as a name may be. */
static const char *const names[NAMES] = {
    "x", "seam", "pen.up", "0123456789abcdef0123456789abcdef0123456789abcdef0123456789abcdef",
};

/* ---- chance */

static uint64_t state;

static uint64_t chance(void)
{
    uint64_t z = state += UINT64_C(0x9e3779b97f4a7c15);

    z = (z ^ z >> 30) * UINT64_C(0xbf58476d1ce4e5b9);
    z = (z ^ z >> 27) * UINT64_C(0x94d049bb133111eb);

    return z ^ z >> 31;
}

/* A number below n, and 0 where there is none. */
static uint32_t below(uint32_t n)
{
    return n > 0 ? (uint32_t)(chance() % n) : 0;
}

static bool once_in(uint32_t n)
{
    return below(n) == 0;
}

/* ---- what is counted, and how a failure is told */

struct tally {
    const char *name;
    size_t calls, short_calls, numbers[REFUSALS + 1];
};

static struct tally *running;
static uint64_t seed;

static void fail(const char *what)
{
    printf("seed %llu, call %zu of %s: %s\n", (unsigned long long)seed, running->calls,
           running->name, what);
    fflush(stdout);
    _exit(1);
}

static void touched(int number)
{
    (void)number;
    fail("a byte was touched that is not the call's, or written that is only read");
}

/* ---- buffers */

struct buffer {
    size_t length;
    uint8_t bytes[ROOM]; /* as at entry */
    uint8_t *own;        /* its pages, as this program writes them */
    uint8_t *pages;      /* the same pages as they are lent, between two that cannot be touched */
    uint8_t *lent;
};

static struct buffer tokens, mnemonic, descriptors, data, pending, breakpoints, counts, answer;
static struct buffer labels, entry, regions, patches; /* a build's pending list is only read */
static struct buffer typed, records;                  /* a text, and the records of its tokens */

static struct buffer defined, written;                /* macros, and the tokens written out */

static struct buffer image, held;                     /* a dry run's regions and registers */
static struct buffer wall;                            /* a page for the wall */
static struct buffer uses;                            /* an index of label uses */

static struct buffer progress, undo;                  /* patching: the state record, kept words */

static void *mapped(void *at, size_t size, int protection, int flags, int file)
{
    void *pages = mmap(at, size, protection, flags, file, 0);

    if (pages == MAP_FAILED) {
        perror("mmap");
        exit(2);
    }

    return pages;
}

static void make(struct buffer *buffer, int protection)
{
    int file = memfd_create("buffer", 0);

    if (file < 0 || ftruncate(file, ROOM) != 0) {
        perror("memfd_create");
        exit(2);
    }
    uint8_t *around = mapped(NULL, ROOM + 2 * PAGE, PROT_NONE, MAP_PRIVATE | MAP_ANONYMOUS, -1);
    buffer->pages = mapped(around + PAGE, ROOM, protection, MAP_SHARED | MAP_FIXED, file);
    buffer->own = mapped(NULL, ROOM, PROT_READ | PROT_WRITE, MAP_SHARED, file);
    close(file);
}

/* Where the marked bytes start: behind the buffer at the pages' start, or before it. */
static size_t edge(const struct buffer *buffer)
{
    size_t place = (size_t)(buffer->lent - buffer->pages);

    return place == 0 ? buffer->length : place - EDGE;
}

static void lend(struct buffer *buffer)
{
    size_t place = once_in(2) ? 0 : ROOM - buffer->length;

    buffer->lent = buffer->pages + place;
    memset(buffer->own + edge(buffer), MARK, EDGE);
    memcpy(buffer->own + place, buffer->bytes, buffer->length);
}

/* Every byte but those from one place to another is as at entry. */
static void kept(const struct buffer *buffer, size_t from, size_t to, const char *what)
{
    const uint8_t *now = buffer->lent, *marked = buffer->pages + edge(buffer);

    if (memcmp(now, buffer->bytes, from) != 0 ||
        memcmp(now + to, buffer->bytes + to, buffer->length - to) != 0)
        fail(what);
    for (size_t i = 0; i < EDGE; i++)
        if (marked[i] != MARK)
            fail("a byte beside a buffer was changed");
}

static void unchanged(const struct buffer *buffer)
{
    kept(buffer, 0, 0, "a byte was changed that may not change");
}

/* ---- records */

static void put(struct buffer *buffer, uint64_t value, size_t size)
{
    for (; size > 0; size--) {
        buffer->bytes[buffer->length++] = value & 0xff;
        value >>= 8;
    }
}

static void put_text(struct buffer *buffer, const char *text)
{
    for (; *text != 0; text++)
        put(buffer, (uint8_t)*text, 1);
}

static uint32_t number_at(const uint8_t *bytes, size_t place)
{
    uint32_t number = 0;

    for (size_t i = 4; i > 0; i--)
        number = number << 8 | bytes[place + i - 1];

    return number;
}

static void put_head(struct buffer *buffer, size_t length, uint16_t kind)
{
    put(buffer, length, 2);
    put(buffer, kind, 2);
}

static void put_any(struct buffer *buffer, size_t size)
{
    for (; size > 0; size--)
        put(buffer, chance(), 1);
}

/* A constant, or a name with an added offset: the part that pending and entry share. */
static void put_reference(struct buffer *buffer, const char *name, uint64_t value)
{
    put(buffer, name != NULL, 1);
    put(buffer, value, 8);
    put(buffer, name != NULL ? chance() : 0, 8);
    put_text(buffer, name != NULL ? name : "");
}

static size_t reference_length(const char *name)
{
    return 17 + (name != NULL ? strlen(name) : 0);
}

static const char *some_name(void)
{
    return once_in(3) ? NULL : names[below(NAMES)];
}

static void put_pending(struct buffer *list, uint16_t region, uint32_t offset, uint64_t value)
{
    const char *name = some_name();

    put_head(list, 15 + reference_length(name), 36);
    put(list, region, 2);
    put(list, offset, 4);
    put(list, chance(), 8);
    put(list, below(5), 1);
    put_reference(list, name, name != NULL ? below(8) * 4 : value);
}

/* ---- damage: a list that is no list any more, or not one that a call may take */

static void damage(struct buffer *list)
{
    size_t place = below((uint32_t)list->length);

    switch (below(6)) {
    case 0: list->bytes[place] ^= (uint8_t)(1u << below(8)); break;
    case 1: list->bytes[place] = (uint8_t)chance(); break;
    case 2: list->length = place; break;
    case 3: put_any(list, 1 + below(8)); break;
    case 4: list->bytes[below(4)] ^= (uint8_t)(1 + below(255)); break;
    case 5:
        if (once_in(100)) /* over the limit */
            list->length = NAZGWERN_MOST_BYTES + 1 + below(64);
        break;
    }
}

/* ---- the answer of any entry */

/* Of the lengths that a call needs, one in a hundred is too short. */
static void some_room(struct buffer *buffer, size_t least)
{
    buffer->length = 0;
    put_any(buffer, once_in(100) ? below((uint32_t)least) : least + below(3) * below(9));
}

/* Counts the call, and whether its buffers were long enough for it to be made. */
static bool answered(uint32_t number, bool enough)
{
    running->calls++;
    if (!enough) {
        if (number != NAZGWERN_TOO_SHORT)
            fail("too short a buffer, and another answer");
        running->short_calls++;
        unchanged(&answer);
        return false;
    }
    if (number > REFUSALS || number_at(answer.lent, 0) != number)
        fail("a number that is no answer, or not the answer's");
    running->numbers[number]++;
    kept(&answer, 0, NAZGWERN_ANSWER_BYTES, "a byte behind the answer was changed");

    return true;
}

/* ---- a line */

static void token(uint16_t kind, uint64_t payload, size_t size)
{
    put_head(&tokens, 8 + size, kind);
    put(&tokens, chance(), 8);
    put(&tokens, payload, size);
}

static void text(uint16_t kind, const char *bytes)
{
    put_head(&tokens, 8 + strlen(bytes), kind);
    put(&tokens, chance(), 8);
    put_text(&tokens, bytes);
}

/* An operand, or what may stand where one is due. */
static void operand(char letter)
{
    switch (letter) {
    case 'r': token(3, below(32), 1); break;
    case 'f': token(4, below(32), 1); break;
    case 'i': token(5, below(65536), 8); break;
    case 'c': token(5, below(once_in(2) ? 10 : 34), 8); break;
    case 'n': token(5, once_in(2) ? chance() : chance() >> 32, 8); break;
    case 'm': token(9 + (uint16_t)below(2), 0, 0), token(5, below(65536), 8); break;
    case 's': text(8, names[below(NAMES)]); break;
    case 'p': text(8, names[below(NAMES)]), token(9, 0, 0), token(5, 4, 8); break;
    case 'b': token(14, 0, 0), token(3, below(32), 1), token(15, 0, 0); break;
    case 'o': token(14, 0, 0), token(3, below(32), 1), operand('r'); break;
    case 't': text((uint16_t[]){0, 1, 2, 7}[below(4)], names[below(NAMES)]); break;
    case 'd': token(6, chance(), 8); break;
    case 'k': token((uint16_t[]){9, 10, 12, 13, 14, 15}[below(6)], 0, 0); break;
    }
}

/* The letter of an operand that may stand there, or now and then of another. */
static char some_operand(char letter)
{
    static const char others[] = "rfinmspbotdk";

    if (once_in(16))
        return others[below(sizeof others - 1)];
    switch (letter) {
    case 'v': return "rinm"[below(4)];
    case 'i': return "inm"[below(3)];
    case 'c': return "cccinm"[below(6)];
    case 's': return "spi"[below(3)];
    case 'a': return "inmsp"[below(5)];
    case 'b': return "bbbbo"[below(5)];
    }

    return letter;
}

static void put_descriptor(const char *name, uint8_t encoding)
{
    bool sized = encoding >= 15 && encoding <= 18, other = encoding == 7 && once_in(2);
    bool flagged = encoding == 17 || encoding == 19 || encoding == 20;

    put_head(&descriptors, 8 + strlen(name), 33);
    put(&descriptors, below(6), 1);
    put(&descriptors, chance(), 1);
    put(&descriptors, encoding, 1);
    put(&descriptors, sized ? below(3) : 0, 1);
    put(&descriptors, flagged ? below(2) : 0, 1);
    put(&descriptors, other, 1);
    put(&descriptors, other ? below(6) : 0, 1);
    put(&descriptors, other ? chance() : 0, 1);
    put_text(&descriptors, name);
}

/* A pseudo-instruction, or one of two descriptors or of none, with operands that fit. */
static void line_lists(void)
{
    uint8_t first = (uint8_t)below(ENCODINGS), second = (uint8_t)below(ENCODINGS);
    const char *const *pseudo = pseudos[below(PSEUDOS)];
    const char *name = pseudo[0], *operands = pseudo[1];

    switch (below(16)) {
    case 0: name = "neither"; break;
    case 1: case 2: case 3: name = "t", operands = encodings[first]; break;
    case 4: case 5: case 6: name = "AddU", operands = encodings[second]; break;
    }
    tokens.length = mnemonic.length = descriptors.length = 0;
    for (; *operands != 0; operands++)
        operand(some_operand(*operands)), token(11, 0, 0);
    if (once_in(20))
        tokens.length = 0;
    put_head(&mnemonic, 8 + strlen(name), 32);
    put(&mnemonic, chance(), 8);
    put_text(&mnemonic, name);
    put_descriptor("t", first);
    put_descriptor("addu", second);
    if (once_in(20))
        put_descriptor(once_in(2) ? "b" : "t", (uint8_t)below(ENCODINGS));
}

/* What is left of a full buffer, or room for any line but for one in eight. */
static void put_room(struct buffer *buffer, bool full, uint32_t most)
{
    put_any(buffer, full ? NAZGWERN_MOST_BYTES - buffer->length
                         : once_in(8) ? below(most) : most + below(9));
}

/* Fills the buffers in part, to their limits now and then; their fill counts go into `counts`, of
   which the call needs so many bytes. */
static void line_buffers(size_t needed)
{
    bool full = once_in(2000);
    uint32_t fills[3];

    data.length = pending.length = breakpoints.length = counts.length = 0;
    put_any(&data, full ? NAZGWERN_MOST_DATA - 4 * below(8) : 4 * below(9));
    fills[0] = (uint32_t)data.length;
    for (size_t most = full ? NAZGWERN_MOST_BYTES - 400 : below(200); pending.length < most;)
        put_pending(&pending, (uint16_t)below(16), below(64), chance());
    fills[1] = (uint32_t)pending.length;
    for (size_t most = full ? NAZGWERN_MOST_BYTES - 80 : below(100); breakpoints.length < most;) {
        uint32_t pcs = 1 + below(5);
        put_head(&breakpoints, 8 + 4 * pcs, 37);
        put_any(&breakpoints, 8 + 4 * pcs);
    }
    fills[2] = (uint32_t)breakpoints.length;
    put_room(&data, full, NAZGWERN_LINE_DATA);
    put_room(&pending, full, NAZGWERN_LINE_PENDING);
    put_room(&breakpoints, full, NAZGWERN_LINE_BREAKPOINTS);

    some_room(&counts, needed);
    for (size_t i = 0; i < 3 && 4 * i + 4 <= counts.length; i++) {
        size_t length = counts.length;
        counts.length = 4 * i;
        put(&counts, once_in(200) ? chance() : fills[i], 4);
        counts.length = length;
    }
}

/* How much the fill count of a buffer grew; only those bytes behind the old count may differ. */
static uint32_t grown(const struct buffer *fills, const struct buffer *buffer, size_t which,
                      uint32_t most)
{
    uint32_t from = number_at(fills->bytes, 4 * which), to = number_at(fills->lent, 4 * which);

    if (to < from || to - from > most || to > buffer->length)
        fail("a fill count fell, or grew by more than a line may add");
    kept(buffer, from, to, "a byte outside what the line added was changed");

    return to - from;
}

static uint32_t greatest[3];

typedef uint32_t line_call(const uint8_t *, size_t, const uint8_t *, size_t, const uint8_t *,
                           size_t, uint8_t *, size_t, uint8_t *, size_t, uint8_t *, size_t,
                           uint8_t *, size_t, uint32_t, uint16_t, uint32_t, uint8_t *, size_t);

static void line(line_call *call)
{
    struct buffer *const lists[] = {&tokens, &mnemonic, &descriptors,
                                    &data,   &pending,  &breakpoints};
    uint32_t address = once_in(20) ? 0xffffffff - below(64) : 0x00400000;
    uint16_t region = once_in(20) ? (uint16_t)(once_in(2) ? 65535 : chance()) : (uint16_t)below(16);
    uint32_t position = once_in(50) ? (uint32_t)chance() : once_in(10) ? below(4) : 0;

    line_lists();
    line_buffers(NAZGWERN_COUNTS_BYTES);
    some_room(&answer, NAZGWERN_ANSWER_BYTES);
    if (once_in(5))
        damage(lists[below(6)]);
    for (size_t i = 0; i < 6; i++)
        lend(lists[i]);
    lend(&counts);
    lend(&answer);

    uint32_t number = call(
        tokens.lent, tokens.length, mnemonic.lent, mnemonic.length, descriptors.lent,
        descriptors.length, data.lent, data.length, pending.lent, pending.length, breakpoints.lent,
        breakpoints.length, counts.lent, counts.length, position, region, address, answer.lent,
        answer.length);

    for (size_t i = 0; i < 3; i++)
        unchanged(lists[i]);
    if (!answered(number, counts.length >= NAZGWERN_COUNTS_BYTES &&
                              answer.length >= NAZGWERN_ANSWER_BYTES) ||
        number != 0) {
        for (size_t i = 3; i < 6; i++)
            unchanged(lists[i]);
        unchanged(&counts);
        return;
    }

    const uint32_t most[] = {NAZGWERN_LINE_DATA, NAZGWERN_LINE_PENDING, NAZGWERN_LINE_BREAKPOINTS};
    for (size_t i = 0; i < 3; i++) {
        uint32_t added = grown(&counts, lists[3 + i], i, most[i]);
        greatest[i] = added > greatest[i] ? added : greatest[i];
    }
    kept(&counts, 0, NAZGWERN_COUNTS_BYTES, "a byte behind the counts was changed");
}

static void do_instruction(void)
{
    line(nazgwern_do_instruction);
}

static void do_manual_instruction(void)
{
    line(nazgwern_do_manual_instruction);
}

static void do_release_6_instruction(void)
{
    line(nazgwern_do_release_6_instruction);
}

/* ---- a build */

static void build_lists(void)
{
    uint32_t number_of_regions = once_in(20) ? below(18) : 1 + below(3);
    const char *start = some_name();

    labels.length = entry.length = regions.length = patches.length = 0;
    for (uint32_t i = once_in(4) ? below(NAMES) : 0; i < NAMES; i++) {
        put_head(&labels, 4 + strlen(names[i]), 34);
        put(&labels, 0x00400000 + 4 * below(64), 4);
        put_text(&labels, names[i]);
    }
    if (once_in(50)) {
        put_head(&labels, 4 + 1, 34);
        put(&labels, 0, 4);
        put_text(&labels, "x");
    }
    if (once_in(2)) {
        put_head(&entry, reference_length(start), 38);
        put_reference(&entry, start, chance());
    }
    for (uint32_t left = number_of_regions; left > 0; left--) {
        size_t length = once_in(2000) ? 60000 / number_of_regions : below(40);
        put_head(&regions, 4 + length, 35);
        put(&regions, once_in(20) ? 0x0ffffff0 : 0x00400000, 4);
        put_any(&regions, length);
    }
    for (uint32_t left = once_in(2000) ? 600 : below(4); left > 0; left--)
        put_pending(&patches, (uint16_t)below(number_of_regions + once_in(50)),
                    once_in(4) ? below(48) : 0,
                    0x00400000 + (once_in(8) ? chance() >> 44 : below(256)));
}

/* Of a region list and a pending list of these lengths only the four bytes of each patch that ends
   within its region may differ. */
static void patched(size_t filled, size_t waiting)
{
    static bool may[ROOM];
    size_t starts[16] = {0}, sizes[16] = {0}, n = 0;

    memset(may, 0, regions.length);
    for (size_t at = 0; at < filled; at = starts[n - 1] + sizes[n - 1]) {
        sizes[n] = (number_at(regions.bytes, at) & 0xffff) - 4;
        starts[n++] = at + 8;
    }
    for (size_t at = 0; at < waiting; at += 4 + (number_at(patches.bytes, at) & 0xffff)) {
        size_t region = number_at(patches.bytes, at + 4) & 0xffff;
        size_t offset = number_at(patches.bytes, at + 6);
        if (offset + 4 <= sizes[region])
            memset(may + starts[region] + offset, true, 4);
    }
    for (size_t i = 0; i < regions.length; i++)
        if (!may[i] && regions.lent[i] != regions.bytes[i])
            fail("a byte outside the patches was changed");
    kept(&regions, 0, regions.length, "");
}

typedef uint32_t build_call(const uint8_t *, size_t, const uint8_t *, size_t, uint8_t *, size_t,
                            const uint8_t *, size_t, uint8_t *, size_t);

static void one_build(build_call *call)
{
    struct buffer *const lists[] = {&labels, &entry, &patches, &regions};

    build_lists();
    some_room(&answer, NAZGWERN_ANSWER_BYTES);
    if (once_in(5))
        damage(lists[below(4)]);
    for (size_t i = 0; i < 4; i++)
        lend(lists[i]);
    lend(&answer);

    uint32_t number = call(labels.lent, labels.length, entry.lent, entry.length, regions.lent,
                           regions.length, patches.lent, patches.length, answer.lent,
                           answer.length);

    for (size_t i = 0; i < 3; i++)
        unchanged(lists[i]);
    if (answered(number, answer.length >= NAZGWERN_ANSWER_BYTES) && number == 0)
        patched(regions.length, patches.length);
    else
        unchanged(&regions);
}

static void build(void)
{
    one_build(nazgwern_build);
}

static void build_manual(void)
{
    one_build(nazgwern_build_manual);
}

/* ---- the counts of a range */

static void count_forms(void)
{
    uint32_t start = once_in(4) ? below(0x20000) : (uint32_t)chance();
    uint32_t end = once_in(8) ? start - below(3) : (uint32_t)chance();

    some_room(&counts, NAZGWERN_FORM_COUNTS_BYTES);
    some_room(&answer, NAZGWERN_ANSWER_BYTES);
    lend(&counts);
    lend(&answer);

    uint32_t number = nazgwern_count_forms(start, end, counts.lent, counts.length, answer.lent,
                                           answer.length);

    if (answered(number, counts.length >= NAZGWERN_FORM_COUNTS_BYTES &&
                             answer.length >= NAZGWERN_ANSWER_BYTES) &&
        number == 0)
        kept(&counts, 0, NAZGWERN_FORM_COUNTS_BYTES, "a byte behind the counts was changed");
    else
        unchanged(&counts);
}

/* ---- a text */

/* Pieces of a text, good ones first. */
static const char *const pieces[] = {
    "add",   "loop1", ":",     ",",  "(",    ")",    "+",      "-",    " ",   "\t",  "\r",
    "\n",    ".word", ".",     "%a", "$t0",  "$f31", "$31",    "0x1F", "420", "0X1", "\"seam\"",
    "# pen", "\"\"",  "_x",    "$",  "$f32", "%",    "0x",     "\"",   "#\t", "~",   "\x80",
    "0123456789abcdef0123456789abcdef0123456789abcdef0123456789abcdef", "99999999999999999999",
};
enum { PIECES = sizeof pieces / sizeof *pieces, GOOD_PIECES = 25 };

static void some_text(void)
{
    uint32_t good = once_in(8) ? PIECES : GOOD_PIECES;

    typed.length = 0;
    if (once_in(8)) {
        put_any(&typed, below(40));
        return;
    }
    for (uint32_t left = once_in(1000) ? 9000 : below(20); left > 0; left--) {
        put_text(&typed, pieces[below(good)]);
        if (once_in(2))
            put_text(&typed, " ");
    }
}

static void read_text(void)
{
    some_text();
    records.length = 0;
    put_any(&records, once_in(4) ? below(200) : 16 * typed.length % NAZGWERN_MOST_BYTES);
    some_room(&answer, NAZGWERN_ANSWER_BYTES);
    if (once_in(1000)) { /* the limit, or over it */
        struct buffer *buffer = once_in(2) ? &typed : &records;
        buffer->length = NAZGWERN_MOST_BYTES + below(64);
    }
    lend(&typed);
    lend(&records);
    lend(&answer);

    uint32_t number = nazgwern_read_text(typed.lent, typed.length, (uint32_t)chance(), records.lent,
                                         records.length, answer.lent, answer.length);

    unchanged(&typed);
    if (!answered(number, answer.length >= NAZGWERN_ANSWER_BYTES) || number != 0) {
        unchanged(&records);
        return;
    }
    uint32_t fill = number_at(answer.lent, 20);
    if (fill > records.length)
        fail("a fill past the buffer's end");
    kept(&records, 0, fill, "a byte behind the records was changed");
}

/* ---- a dry run */

/* A word of each instruction, and its bits that may be any. */
static const uint32_t shapes[][2] = {
    {0x00000000, 0x00000000}, {0x24000000, 0x03ffffff}, {0x20000000, 0x03ffffff},
    {0x00000020, 0x03fff800}, {0x00000021, 0x03fff800}, {0x00000022, 0x03fff800},
    {0x00000023, 0x03fff800}, {0x0000002a, 0x03fff800}, {0x0000002b, 0x03fff800},
    {0x34000000, 0x03ffffff}, {0x38000000, 0x03ffffff}, {0x00000026, 0x03fff800},
    {0x00000027, 0x03fff800}, {0x3c000000, 0x001fffff}, {0x00000003, 0x001fffc0},
    {0x10000000, 0x03ff0007}, {0x1400fff8, 0x03ff0007}, {0x08100000, 0x0000000f},
    {0x00000000, 0xffffffff},
};
enum { SHAPES = sizeof shapes / sizeof *shapes };

static void some_image(void)
{
    image.length = 0;
    for (uint32_t left = once_in(20) ? below(18) : 1 + below(3); left > 0; left--) {
        size_t words = once_in(2000) ? 3000 : below(24), extra = once_in(2) ? below(4) : 0;
        put_head(&image, 4 + 4 * words + extra, 35);
        put(&image, once_in(20) ? 0xfffffff0 : 0x00400000 + 4 * below(8), 4);
        for (; words > 0; words--) {
            const uint32_t *shape = shapes[below(once_in(20) ? SHAPES : SHAPES - 1)];
            put(&image, shape[0] | ((uint32_t)chance() & shape[1]), 4);
        }
        put_any(&image, extra);
    }
}

static void dry_run(void)
{
    uint32_t pc = once_in(20) ? (uint32_t)chance() : 0x00400000 + 4 * below(8);
    uint32_t allowance = once_in(4) ? below(4) : below(200);

    some_image();
    some_room(&held, NAZGWERN_REGISTERS_BYTES);
    some_room(&answer, NAZGWERN_ANSWER_BYTES);
    if (once_in(5))
        damage(&image);
    lend(&image);
    lend(&held);
    lend(&answer);

    uint32_t number = nazgwern_dry_run(image.lent, image.length, held.lent, held.length, pc,
                                       allowance, answer.lent, answer.length);

    unchanged(&image);
    if (!answered(number, held.length >= NAZGWERN_REGISTERS_BYTES &&
                              answer.length >= NAZGWERN_ANSWER_BYTES) ||
        number != 0) {
        unchanged(&held);
        return;
    }
    uint32_t reason = number_at(answer.lent, 12), steps = number_at(answer.lent, 16);
    if (reason > 3 || steps > allowance || (reason == 0) != (steps == allowance))
        fail("a reason or a number of steps that no run has");
    if (number_at(held.lent, 0) != 0)
        fail("$zero is not 0");
    kept(&held, 0, NAZGWERN_REGISTERS_BYTES, "a byte behind the registers was changed");
}

/* ---- macros */

/* A token of one of four names, or a mark, or a register. */
static void put_token(struct buffer *list, uint16_t kind, const char *bytes)
{
    put_head(list, 8 + strlen(bytes), kind);
    put(list, chance(), 8);
    put_text(list, bytes);
}

/* Lines with labels, calls and other tokens; a body's have its parameters. */
static void some_lines(struct buffer *list, uint32_t count, uint32_t parameters)
{
    for (; count > 0; count--) {
        if (once_in(4)) {
            put_token(list, 8, names[below(NAMES)]);
            put_token(list, 12, "");
        }
        if (once_in(6))
            put_token(list, 0, "pen");
        put_token(list, 8, once_in(4) ? "addu" : names[below(NAMES)]);
        for (uint32_t left = below(4); left > 0; left--) {
            if (parameters > 0 && once_in(2))
                put_token(list, 2, names[below(parameters)]);
            else if (once_in(4))
                put_token(list, (uint16_t[]){9, 10, 11, 12, 14, 15}[below(6)], "");
            else if (once_in(3))
                put_token(list, 8, names[below(NAMES)]);
            else
                put_token(list, 3, "\x08");
        }
        if (count > 1 || once_in(2))
            put_token(list, 13, "");
    }
}

static void some_macros(void)
{
    static struct buffer body;
    uint32_t first = below(NAMES);

    defined.length = 0;
    for (uint32_t number = 0, count = below(NAMES + 1); number < count; number++) {
        const char *name = names[once_in(50) ? first : (first + number) % NAMES];
        uint32_t parameters = once_in(30) ? 5 : below(NAMES);

        body.length = 0;
        put(&body, strlen(name), 1), put_text(&body, name), put(&body, parameters, 1);
        for (uint32_t i = 0; i < parameters; i++) {
            put(&body, strlen(names[i % NAMES]), 1);
            put_text(&body, names[i % NAMES]);
        }
        some_lines(&body, below(4), parameters < NAMES ? parameters : 0);
        put_head(&defined, body.length, 40);
        for (size_t i = 0; i < body.length; i++)
            put(&defined, body.bytes[i], 1);
    }
}

static void write_out(void)
{
    some_macros();
    tokens.length = 0;
    some_lines(&tokens, once_in(500) ? 500 : below(8), 0);
    written.length = 0;
    put_any(&written, once_in(3) ? below(400) : 4000 + below(20000));
    some_room(&answer, NAZGWERN_ANSWER_BYTES);
    if (once_in(16))
        damage(&tokens);
    if (once_in(16))
        damage(&defined);
    if (once_in(1000)) /* the limit, or over it */
        written.length = NAZGWERN_MOST_BYTES + below(64);
    lend(&tokens), lend(&defined), lend(&written), lend(&answer);

    uint32_t number = nazgwern_write_out(tokens.lent, tokens.length, defined.lent, defined.length,
                                         written.lent, written.length, answer.lent, answer.length);

    unchanged(&tokens);
    unchanged(&defined);
    if (!answered(number, answer.length >= NAZGWERN_ANSWER_BYTES) || number != 0) {
        unchanged(&written);
        return;
    }
    uint32_t fill = number_at(answer.lent, 20);
    if (fill > written.length)
        fail("a fill past the buffer's end");
    kept(&written, 0, fill, "a byte behind the records was changed");
}

/* ---- a page for the wall */

static void put_label(void)
{
    bool owned = once_in(2);
    size_t length = 1 + below(once_in(4) ? 64 : 22);

    put_head(&labels, (owned ? 8 : 4) + length, owned ? 41 : 34);
    put(&labels, 0x00400000 + (once_in(4) ? below(64) : 4 * below(16)), 4);
    if (owned)
        put(&labels, below(once_in(100) ? 2 : 1u << 20), 4);
    for (; length > 0; length--)
        put(&labels, 0x20 + below(0x5f), 1);
}

/* A line for each region, and one for each four bytes and for what is left behind them. */
static size_t page_length(void)
{
    size_t lines = 0;

    for (size_t place = 0; place < image.length;) {
        size_t body = image.bytes[place] + 256 * (size_t)image.bytes[place + 1];
        lines += 1 + (body - 4 + 3) / 4;
        place += 4 + body;
    }

    return 73 * lines;
}

/* The exact length of the page, or some more or less; now and then the limit, or over it. */
static size_t some_page_length(void)
{
    size_t exact = page_length();

    switch (below(6)) {
    case 0: return exact > 0 ? exact - 1 : 0;
    case 1: return below((uint32_t)exact);
    case 2: return exact + below(100);
    case 3:
        if (once_in(500))
            return NAZGWERN_MOST_PAGE + below(3);
    }

    return exact;
}

static void lay_out(void)
{
    labels.length = 0;
    for (uint32_t left = once_in(1000) ? 900 : below(12); left > 0; left--)
        put_label();
    if (once_in(10000)) { /* the longest page */
        image.length = 0;
        put_head(&image, 4 + NAZGWERN_MOST_DATA, 35);
        put_any(&image, 4 + NAZGWERN_MOST_DATA);
    } else {
        some_image();
    }
    wall.length = some_page_length();
    memset(wall.bytes, (int)below(256), wall.length);
    some_room(&answer, NAZGWERN_ANSWER_BYTES);
    if (once_in(5))
        damage(once_in(2) ? &labels : &image);
    lend(&labels);
    lend(&image);
    lend(&wall);
    lend(&answer);

    uint32_t number = nazgwern_lay_out(labels.lent, labels.length, image.lent, image.length,
                                       wall.lent, wall.length, answer.lent, answer.length);

    unchanged(&labels);
    unchanged(&image);
    if (!answered(number, answer.length >= NAZGWERN_ANSWER_BYTES) || number != 0) {
        unchanged(&wall);
        return;
    }
    uint32_t length = number_at(answer.lent, 20);
    if (length != page_length() || length > wall.length)
        fail("a length that the page has not");
    kept(&wall, 0, length, "a byte behind the page was changed");
}

/* ---- patching by steps, and lines while it runs */

/* The state record: the fill counts of these lists, some patches and some state, now and then any. */
static void some_progress(uint32_t filled, uint32_t waiting, uint32_t stopped)
{
    const uint32_t numbers[] = {filled, waiting, stopped, once_in(2) ? 0 : below(4),
                                once_in(4) ? below(4) : 0};

    some_room(&progress, NAZGWERN_STATE_BYTES);
    for (size_t i = 0; i < 5 && 4 * i + 4 <= progress.length; i++) {
        size_t length = progress.length;
        progress.length = 4 * i;
        put(&progress, once_in(200) ? chance() : numbers[i], 4);
        progress.length = length;
    }
}

/* Of a step's lists one that patches changes four bytes of the regions and keeps those that stood
   there; one that ends or is refused with 14 to 16 says so in the state record, the latter with
   all patches put back. */
static void stepped(uint32_t number, uint32_t before)
{
    size_t done = number_at(progress.bytes, 12);
    bool patches_one = number == 0 && number_at(answer.lent, 12) == 0;

    if (before != 0) {
        unchanged(&regions), unchanged(&undo), unchanged(&progress);
        return;
    }
    patched(number_at(progress.bytes, 0), number_at(progress.bytes, 4));
    if (number == 0 && !patches_one)
        unchanged(&regions);
    kept(&undo, patches_one ? 4 * done : 0, patches_one ? 4 * done + 4 : 0,
         "a kept word was changed");
    kept(&progress, 12, NAZGWERN_STATE_BYTES, "a fill count was changed, or a byte behind");
    if (number_at(progress.lent, 12) != (patches_one ? done + 1 : number == 0 ? done : 0) ||
        number_at(progress.lent, 16) != (patches_one ? 0u : number == 0 ? 1u : 2u))
        fail("patches or a state that no step leaves");
}

typedef uint32_t step_call(const uint8_t *, size_t, const uint8_t *, size_t, uint8_t *, size_t,
                           const uint8_t *, size_t, uint8_t *, size_t, uint8_t *, size_t, uint8_t *,
                           size_t);

static void one_step(step_call *call)
{
    struct buffer *const lists[] = {&labels, &entry, &patches, &regions};

    build_lists();
    some_progress((uint32_t)regions.length, (uint32_t)patches.length, below(100));
    put_any(&regions, below(60));
    put_any(&patches, below(60));
    undo.length = 0;
    put_any(&undo, once_in(16) ? below(20) : patches.length / 9);
    some_room(&answer, NAZGWERN_ANSWER_BYTES);
    if (once_in(5))
        damage(lists[below(4)]);
    for (size_t i = 0; i < 4; i++)
        lend(lists[i]);
    lend(&undo), lend(&progress), lend(&answer);

    uint32_t number = call(labels.lent, labels.length, entry.lent, entry.length, regions.lent,
                           regions.length, patches.lent, patches.length, undo.lent, undo.length,
                           progress.lent, progress.length, answer.lent, answer.length);

    for (size_t i = 0; i < 3; i++)
        unchanged(lists[i]);
    if (answered(number, progress.length >= NAZGWERN_STATE_BYTES &&
                             answer.length >= NAZGWERN_ANSWER_BYTES) &&
        (number == 0 || (number >= 14 && number <= 16)))
        stepped(number, number_at(progress.bytes, 16));
    else
        unchanged(&regions), unchanged(&undo), unchanged(&progress);
}

/* Behind the record of that region stand new words, which its length counts, and all behind it has
   moved up; nothing else in the list's buffer has changed. */
static void region_grown(uint16_t region)
{
    size_t fill = number_at(progress.bytes, 0), words = number_at(progress.lent, 0) - fill, at = 0;
    const uint8_t *was = regions.bytes, *now = regions.lent;

    for (; region > 0; region--)
        at += 4 + (number_at(was, at) & 0xffff);
    size_t body = number_at(was, at) & 0xffff, end = at + 4 + body;

    if (words > NAZGWERN_LINE_DATA || fill + words > regions.length ||
        (number_at(now, at) & 0xffff) != body + words || memcmp(now, was, at) != 0 ||
        memcmp(now + at + 2, was + at + 2, end - at - 2) != 0 ||
        memcmp(now + end + words, was + end, fill - end) != 0 ||
        memcmp(now + fill + words, was + fill + words, regions.length - fill - words) != 0)
        fail("a byte of the region list was changed that is no new word");
    kept(&regions, 0, regions.length, "");
}

typedef uint32_t append_call(const uint8_t *, size_t, const uint8_t *, size_t, const uint8_t *,
                             size_t, uint8_t *, size_t, uint8_t *, size_t, uint8_t *, size_t,
                             uint8_t *, size_t, uint32_t, uint16_t, uint8_t *, size_t);

static void one_appended(append_call *call)
{
    struct buffer *const lists[] = {&tokens,  &mnemonic, &descriptors,
                                    &regions, &pending,  &breakpoints};
    uint16_t region = once_in(20) ? (uint16_t)(once_in(2) ? 65535 : chance()) : (uint16_t)below(3);
    uint32_t position = once_in(50) ? (uint32_t)chance() : once_in(10) ? below(4) : 0;

    line_lists();
    build_lists();
    pending.length = breakpoints.length = 0;
    for (size_t i = 0; i < patches.length; i++)
        put(&pending, patches.bytes[i], 1);
    for (uint32_t left = below(3); left > 0; left--) {
        put_head(&breakpoints, 12, 37);
        put_any(&breakpoints, 12);
    }
    some_progress((uint32_t)regions.length, (uint32_t)pending.length, (uint32_t)breakpoints.length);
    put_room(&regions, once_in(500), NAZGWERN_LINE_DATA);
    put_room(&pending, once_in(500), NAZGWERN_LINE_PENDING);
    put_room(&breakpoints, once_in(500), NAZGWERN_LINE_BREAKPOINTS);
    some_room(&answer, NAZGWERN_ANSWER_BYTES);
    if (once_in(5))
        damage(lists[below(6)]);
    for (size_t i = 0; i < 6; i++)
        lend(lists[i]);
    lend(&progress), lend(&answer);

    uint32_t number = call(tokens.lent, tokens.length, mnemonic.lent, mnemonic.length,
                           descriptors.lent, descriptors.length, regions.lent, regions.length,
                           pending.lent, pending.length, breakpoints.lent, breakpoints.length,
                           progress.lent, progress.length, position, region, answer.lent,
                           answer.length);

    for (size_t i = 0; i < 3; i++)
        unchanged(lists[i]);
    if (!answered(number, progress.length >= NAZGWERN_STATE_BYTES &&
                              answer.length >= NAZGWERN_ANSWER_BYTES) ||
        number != 0) {
        for (size_t i = 3; i < 6; i++)
            unchanged(lists[i]);
        unchanged(&progress);
        return;
    }
    region_grown(region);
    grown(&progress, &pending, 1, NAZGWERN_LINE_PENDING);
    grown(&progress, &breakpoints, 2, NAZGWERN_LINE_BREAKPOINTS);
    kept(&progress, 0, 12, "the patches or the state were changed, or a byte behind");
}

static void patch_step(void)
{
    one_step(nazgwern_patch_step);
}

static void patch_step_manual(void)
{
    one_step(nazgwern_patch_step_manual);
}

static void patch_line(void)
{
    one_appended(nazgwern_patch_line);
}

static void patch_manual_line(void)
{
    one_appended(nazgwern_patch_manual_line);
}

static void patch_release_6_line(void)
{
    one_appended(nazgwern_patch_release_6_line);
}

/* ---- a line with an index of label uses, and an index made afresh */

/* Labels of the names that lines and pendings have, for all files and of three owners. */
static void some_labels(void)
{
    labels.length = 0;
    for (uint32_t label = 0; label < 4 * NAMES; label++) {
        const char *name = names[label % NAMES];
        bool owned = label >= NAMES;

        for (uint32_t left = once_in(3) ? 1 + once_in(60) : 0; left > 0; left--) {
            put_head(&labels, (owned ? 8 : 4) + strlen(name), owned ? 41 : 34);
            put(&labels, chance(), 4);
            if (owned)
                put(&labels, label / NAMES, 4);
            put_text(&labels, name);
        }
    }
}

/* Makes most sources at this place of a list's records those of the owners; a constant has none. */
static void few_sources(struct buffer *list, size_t length, size_t place, size_t form)
{
    for (size_t at = 0; at < length; at += 4 + (number_at(list->bytes, at) & 0xffff))
        if (form == 0 || list->bytes[at + form] == 1)
            if (!once_in(4))
                memcpy(list->bytes + at + place, (uint8_t[]){(uint8_t)(1 + below(3)), 0, 0, 0}, 4);
}

static uint8_t made[NAZGWERN_MOST_BYTES];

/* The length of the index that the library makes of these pendings, in `made`; 0 where it refuses. */
static uint32_t made_of(const uint8_t *list, size_t length, uint32_t fill)
{
    uint8_t told[NAZGWERN_ANSWER_BYTES];

    return nazgwern_make_index(list, length, fill, labels.bytes, labels.length, made, sizeof made,
                               told, sizeof told) == 0
               ? number_at(told, 20)
               : 0;
}

/* A refused call has changed no index; an accepted one only what it has filled, and that is the
   index made afresh. */
static void indexed(bool accepted, uint32_t fill, const uint8_t *list, size_t length, uint32_t pendings)
{
    if (!accepted) {
        unchanged(&uses);
        return;
    }
    if (fill > uses.length || fill != made_of(list, length, pendings) ||
        memcmp(uses.lent, made, fill) != 0)
        fail("an index that is not the pendings'");
    kept(&uses, 0, fill, "a byte behind the index was changed");
}

static void do_indexed(void)
{
    struct buffer *const lists[] = {&tokens, &mnemonic,    &descriptors, &labels,
                                    &data,   &pending, &breakpoints, &uses};
    uint32_t address = once_in(20) ? 0xffffffff - below(64) : 0x00400000;
    uint16_t region = once_in(20) ? 65535 : (uint16_t)below(16);
    uint32_t job = once_in(200) ? 3 + below(9) : below(3);

    line_lists();
    line_buffers(NAZGWERN_INDEXED_COUNTS_BYTES);
    some_labels();
    some_room(&answer, NAZGWERN_ANSWER_BYTES);
    few_sources(&tokens, tokens.length, 4, 0);
    uses.length = 0;
    if (counts.length >= NAZGWERN_INDEXED_COUNTS_BYTES) {
        uint32_t filled = number_at(counts.bytes, 4);
        if (filled <= pending.length)
            few_sources(&pending, filled, 28, 19);
        uses.length = made_of(pending.bytes, pending.length, filled);
        memcpy(uses.bytes, made, uses.length);
        for (size_t i = 0; i < 4; i++)
            counts.bytes[12 + i] = (uint8_t)(uses.length >> 8 * i);
    }
    put_room(&uses, false, once_in(2) ? 160 : 20);
    if (once_in(5))
        damage(lists[below(8)]);
    for (size_t i = 0; i < 8; i++)
        lend(lists[i]);
    lend(&counts);
    lend(&answer);

    uint32_t number = nazgwern_do_indexed(
        tokens.lent, tokens.length, mnemonic.lent, mnemonic.length, descriptors.lent,
        descriptors.length, data.lent, data.length, pending.lent, pending.length, breakpoints.lent,
        breakpoints.length, labels.lent, labels.length, uses.lent, uses.length, counts.lent,
        counts.length, 0, region, address, job, answer.lent, answer.length);

    for (size_t i = 0; i < 4; i++)
        unchanged(lists[i]);
    bool enough = counts.length >= NAZGWERN_INDEXED_COUNTS_BYTES &&
                  answer.length >= NAZGWERN_ANSWER_BYTES && job <= 2;
    if (!answered(number, enough) || number != 0) {
        for (size_t i = 4; i < 8; i++)
            unchanged(lists[i]);
        unchanged(&counts);
        return;
    }

    const uint32_t most[] = {NAZGWERN_LINE_DATA, NAZGWERN_LINE_PENDING, NAZGWERN_LINE_BREAKPOINTS};
    for (size_t i = 0; i < 3; i++)
        grown(&counts, lists[4 + i], i, most[i]);
    kept(&counts, 0, NAZGWERN_INDEXED_COUNTS_BYTES, "a byte behind the counts was changed");
    indexed(true, number_at(counts.lent, 12), pending.lent, pending.length, number_at(counts.lent, 4));
}

static void make_index(void)
{
    patches.length = 0;
    for (size_t most = once_in(1000) ? NAZGWERN_MOST_BYTES - 200 : below(400); patches.length < most;)
        put_pending(&patches, (uint16_t)below(16), below(64), chance());
    few_sources(&patches, patches.length, 28, 19);
    uint32_t fill = (uint32_t)patches.length;
    put_any(&patches, below(9));
    some_labels();
    uint32_t length = made_of(patches.bytes, patches.length, fill);
    uses.length = 0;
    switch (below(4)) {
    case 0: put_any(&uses, length > 0 ? length - 1 : 0); break;
    case 1: put_any(&uses, length + below(3)); break;
    case 2: put_any(&uses, below(fill + 1)); break;
    case 3: put_any(&uses, fill + below(3)); break;
    }
    some_room(&answer, NAZGWERN_ANSWER_BYTES);
    if (once_in(8))
        damage((struct buffer *[]){&patches, &labels, &uses}[below(3)]);
    if (once_in(50))
        fill = below(fill + 20);
    lend(&patches), lend(&labels), lend(&uses), lend(&answer);

    uint32_t number = nazgwern_make_index(patches.lent, patches.length, fill, labels.lent,
                                          labels.length, uses.lent, uses.length, answer.lent,
                                          answer.length);

    unchanged(&patches);
    unchanged(&labels);
    bool accepted = answered(number, answer.length >= NAZGWERN_ANSWER_BYTES) && number == 0;
    indexed(accepted, accepted ? number_at(answer.lent, 20) : 0, patches.bytes, patches.length, fill);
}

/* ---- the entries, each with how many calls */

static const struct {
    const char *name;
    void (*call)(void);
    size_t calls;
} entries[] = {
    {"nazgwern_do_instruction", do_instruction, 1000000},
    {"nazgwern_do_manual_instruction", do_manual_instruction, 1000000},
    {"nazgwern_do_release_6_instruction", do_release_6_instruction, 1000000},
    {"nazgwern_build", build, 500000},
    {"nazgwern_build_manual", build_manual, 500000},
    {"nazgwern_count_forms", count_forms, 500000},
    {"nazgwern_read_text", read_text, 500000},
    {"nazgwern_dry_run", dry_run, 500000},
    {"nazgwern_write_out", write_out, 500000},
    {"nazgwern_lay_out", lay_out, 500000},
    {"nazgwern_patch_step", patch_step, 500000},
    {"nazgwern_patch_step_manual", patch_step_manual, 500000},
    {"nazgwern_patch_line", patch_line, 500000},
    {"nazgwern_patch_manual_line", patch_manual_line, 500000},
    {"nazgwern_patch_release_6_line", patch_release_6_line, 500000},
    {"nazgwern_do_indexed", do_indexed, 500000},
    {"nazgwern_make_index", make_index, 500000},
};

static void report(const struct tally *tally)
{
    printf("%s: %zu calls, %zu accepted, %zu too short; refused", tally->name, tally->calls,
           tally->numbers[0], tally->short_calls);
    for (int i = 1; i <= REFUSALS; i++)
        if (tally->numbers[i] > 0)
            printf(" %d: %zu", i, tally->numbers[i]);
    printf("\n");
}

int main(int count, char **words)
{
    const int only_read = PROT_READ, lent = PROT_READ | PROT_WRITE;

    seed = state = count > 1 ? strtoull(words[1], NULL, 10) : 1;
    make(&tokens, only_read), make(&mnemonic, only_read), make(&descriptors, only_read);
    make(&labels, only_read), make(&entry, only_read), make(&patches, only_read);
    make(&data, lent), make(&pending, lent), make(&breakpoints, lent), make(&regions, lent);
    make(&counts, lent), make(&answer, lent);
    make(&typed, only_read), make(&records, lent);
    make(&image, only_read), make(&held, lent);
    make(&defined, only_read), make(&written, lent);
    make(&wall, lent), make(&uses, lent);
    make(&progress, lent), make(&undo, lent);
    signal(SIGSEGV, touched);
    signal(SIGBUS, touched);

    for (size_t i = 0; i < sizeof entries / sizeof *entries; i++) {
        struct tally tally = {.name = entries[i].name};
        running = &tally;
        while (tally.calls < entries[i].calls)
            entries[i].call();
        report(&tally);
    }
    printf("most that a line added: %u bytes of data, %u of pending, %u of breakpoints\n",
           greatest[0], greatest[1], greatest[2]);

    return 0;
}
