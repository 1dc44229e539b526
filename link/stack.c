/* Measures the greatest stack that a call of each entry takes. Each call runs on a painted stack,
   and what it takes reaches from the frame of the function that makes the call, so arguments and
   return address count, down to the lowest word that has lost its paint.

   Stack goes by the branches that a call takes, and by the length of its lists only where labels or
   descriptors are sorted. So most lists are short and the calls are many: each encoding and each
   pseudo-instruction with every line of up to four operands, each patch, every text of up to three
   pieces, each instruction of a dry run at both ends of its registers, pages of every count of
   regions, and each refusal. A few calls have as many labels, pendings or descriptors as a list can
   have, in falling order, also with names that begin alike. */
#define _XOPEN_SOURCE 700
#include "nazgwern.h"

#include <stdbool.h>
#include <stdio.h>
#include <stdlib.h>
#include <string.h>
#include <ucontext.h>

#define PAINT UINT64_C(0xa5a5a5a5a5a5a5a5)

enum { ENCODINGS = 21, PSEUDOS = 29, OFFSET = 13 };
enum { NEAR = 0x00400000, FAR = 0x10500000, GREATEST_NUMBER = 30, LEVELS = 10 };

static const char *const pseudos[PSEUDOS + 1] = {
    "nop", "abs", "blt", "bgt", "ble", "bge", "bltu", "bgtu", "bleu", "bgeu", "sge", "sgt", "sle",
    "sgeu", "sgtu", "sleu", "beqz", "bnez", "seq", "sne", "neg", "negu", "not", "li", "la", "move",
    "b", "subi", "subiu", "neither",
};

/* One for each kind of token and each fault. */
static const char *const pieces[] = {
    "# c",  "#\t", ".d", "%p", "%",     "$t0", "$31", "$f31", "$f32", "420", "0x1F",
    "0x",   "\"s\"", "\"", "sym", "+", "-",   ",",   ":",    "\n",   "(",   ")",
    "\t",  "~",   "18446744073709551615", "18446744073709551616",
    "0123456789abcdef0123456789abcdef0123456789abcdef0123456789abcdef_",
};
enum { PIECES = sizeof pieces / sizeof *pieces };

struct list {
    size_t length;
    uint8_t bytes[NAZGWERN_MOST_BYTES];
};

/* The arguments of the call that is measured. */
static struct list tokens, mnemonic, descriptors, data, pending, breakpoints;
static struct list labels, entry, regions, text;
static struct list macros, written;
static uint8_t counts[NAZGWERN_INDEXED_COUNTS_BYTES], filled[NAZGWERN_INDEXED_COUNTS_BYTES];
static uint8_t answer[NAZGWERN_ANSWER_BYTES];
static size_t counts_length = NAZGWERN_COUNTS_BYTES, answer_length = sizeof answer;
static uint16_t region;
static uint32_t address, number;

/* A dry run's registers and allowance. */
static uint8_t registers[NAZGWERN_REGISTERS_BYTES];
static size_t registers_length = sizeof registers;
static uint32_t allowance;

/* A page for the wall, and one byte more than its limit. */
static uint8_t wall[NAZGWERN_MOST_PAGE + 1];
static size_t wall_length;

/* An index of label uses, and what is filled of it before each call. */
static struct list uses, uses_filled;
static uint32_t job_number;

/* A text that is too long. */
static const uint8_t over[NAZGWERN_MOST_BYTES + 1];

/* 128 KiB, painted but for what the call has written. Of a call that takes less the lower part is
   looked at in the report only. */
static uint64_t area[16384];
static size_t lowest = 6144;
static uint8_t *frame;
static size_t greatest, calls;

/* What a call may take: a list with macros has an index of them, of which one may have seven bytes; a
   page has the slots of its words beside an index of its labels; and an index of uses is made in an
   array where its buffer is shorter than the pendings. */
enum {
    MOST = 40 * 1024,
    MOST_OF_MACROS = 48 * 1024,
    MOST_OF_PAGE = 56 * 1024,
    MOST_OF_INDEX = 104 * 1024
};
static size_t most = MOST;
static bool seen[GREATEST_NUMBER + 1], short_seen;

/* The entries of the job that is measured. */
static uint32_t (*emit)(const uint8_t *, size_t, const uint8_t *, size_t, const uint8_t *, size_t,
                        uint8_t *, size_t, uint8_t *, size_t, uint8_t *, size_t, uint8_t *,
                        size_t, uint32_t, uint16_t, uint32_t, uint8_t *, size_t);
static uint32_t (*finish)(const uint8_t *, size_t, const uint8_t *, size_t, uint8_t *, size_t,
                          const uint8_t *, size_t, uint8_t *, size_t);

static void do_instruction(void)
{
    frame = __builtin_frame_address(0);
    number = emit(
        tokens.bytes, tokens.length, mnemonic.bytes, mnemonic.length, descriptors.bytes,
        descriptors.length, data.bytes, data.length, pending.bytes, pending.length,
        breakpoints.bytes, breakpoints.length, counts, counts_length, 0, region, address,
        answer, answer_length);
}

static void do_indexed(void)
{
    frame = __builtin_frame_address(0);
    number = nazgwern_do_indexed(
        tokens.bytes, tokens.length, mnemonic.bytes, mnemonic.length, descriptors.bytes,
        descriptors.length, data.bytes, data.length, pending.bytes, pending.length,
        breakpoints.bytes, breakpoints.length, labels.bytes, labels.length, uses.bytes,
        uses.length, counts, counts_length, 0, region, address, job_number, answer,
        answer_length);
}

static void make_index(void)
{
    frame = __builtin_frame_address(0);
    number = nazgwern_make_index(pending.bytes, pending.length, (uint32_t)pending.length,
                                 labels.bytes, labels.length, uses.bytes, uses.length, answer,
                                 answer_length);
}

static void build(void)
{
    frame = __builtin_frame_address(0);
    number = finish(labels.bytes, labels.length, entry.bytes, entry.length, regions.bytes,
                    regions.length, pending.bytes, pending.length, answer, answer_length);
}

static void read_text(void)
{
    frame = __builtin_frame_address(0);
    number = nazgwern_read_text(text.length > sizeof text.bytes ? over : text.bytes, text.length, 7,
                                tokens.bytes, tokens.length, answer, answer_length);
}

static void dry_run(void)
{
    frame = __builtin_frame_address(0);
    number = nazgwern_dry_run(regions.bytes, regions.length, registers, registers_length, address,
                              allowance, answer, answer_length);
}

static void write_out(void)
{
    frame = __builtin_frame_address(0);
    number = nazgwern_write_out(tokens.bytes, tokens.length, macros.bytes, macros.length,
                                written.bytes, written.length, answer, answer_length);
}

static void lay_out(void)
{
    frame = __builtin_frame_address(0);
    number = nazgwern_lay_out(labels.bytes, labels.length, regions.bytes, regions.length, wall,
                              wall_length, answer, answer_length);
}

static void find_label(void)
{
    static const uint8_t name[] = {'x'};

    frame = __builtin_frame_address(0);
    number = nazgwern_find_label(labels.bytes, labels.length, name, sizeof name, 7, answer,
                                 answer_length);
}

static uint8_t forms[NAZGWERN_FORM_COUNTS_BYTES];

static void count_forms(void)
{
    frame = __builtin_frame_address(0);
    number = nazgwern_count_forms(address, allowance, forms, sizeof forms, answer, answer_length);
}

/* The entries of patching, the same way, and what they are lent besides. The state record's fill
   counts are the lengths of the lists, or behind the first line of a job what it has left. */
static uint32_t (*step)(const uint8_t *, size_t, const uint8_t *, size_t, uint8_t *, size_t,
                        const uint8_t *, size_t, uint8_t *, size_t, uint8_t *, size_t, uint8_t *,
                        size_t);
static uint32_t (*append)(const uint8_t *, size_t, const uint8_t *, size_t, const uint8_t *, size_t,
                          uint8_t *, size_t, uint8_t *, size_t, uint8_t *, size_t, uint8_t *,
                          size_t, uint32_t, uint16_t, uint8_t *, size_t);
enum { MOST_KEPT = 7280, GROWS = 64 };
static uint8_t kept[MOST_KEPT], progress[NAZGWERN_STATE_BYTES], list_at_start[GROWS];
static size_t kept_length = MOST_KEPT, progress_length = sizeof progress, list_length;
static uint32_t done, state;

static void put_number(size_t place, uint32_t value)
{
    for (size_t i = 0; i < 4; i++)
        progress[4 * place + i] = (uint8_t)(value >> 8 * i);
}

static void patch_step(void)
{
    frame = __builtin_frame_address(0);
    number = step(labels.bytes, labels.length, entry.bytes, entry.length, regions.bytes,
                  regions.length, pending.bytes, pending.length, kept, kept_length, progress,
                  progress_length, answer, answer_length);
}

static void patch_line(void)
{
    frame = __builtin_frame_address(0);
    number = append(tokens.bytes, tokens.length, mnemonic.bytes, mnemonic.length,
                    descriptors.bytes, descriptors.length, regions.bytes, regions.length,
                    pending.bytes, pending.length, breakpoints.bytes, breakpoints.length, progress,
                    progress_length, 0, region, answer, answer_length);
}

/* What makes the call of a line, and that of a build. */
static void (*line_call)(void) = do_instruction, (*build_call)(void) = build;

/* The state record and the region list as they are before each call. */
static void restore(void)
{
    bool line = line_call == patch_line;

    for (size_t i = 0; i < sizeof filled; i++)
        progress[i] = filled[i];
    if (line)
        memcpy(regions.bytes, list_at_start, sizeof list_at_start);
    put_number(0, (uint32_t)(line ? list_length : regions.length));
    if (!line)
        put_number(1, (uint32_t)pending.length);
    put_number(3, done);
    put_number(4, state);
}

static void paint(size_t from)
{
    for (size_t i = from; i < sizeof area / sizeof *area; i++)
        area[i] = PAINT;
}

/* Runs the call on the painted stack. */
static void run(void (*call)(void))
{
    static ucontext_t here, there;

    getcontext(&there);
    there.uc_stack.ss_sp = area;
    there.uc_stack.ss_size = sizeof area;
    there.uc_link = &here;
    makecontext(&there, call, 0);
    swapcontext(&here, &there);
}

static void measure(void (*call)(void))
{
    size_t word = lowest;

    memcpy(counts, filled, sizeof counts);
    memcpy(uses.bytes, uses_filled.bytes, uses_filled.length);
    if (call == patch_step || call == patch_line)
        restore();
    run(call);
    while (area[word] == PAINT)
        word++;
    if (word == lowest || (number > GREATEST_NUMBER && number != NAZGWERN_TOO_SHORT)) {
        printf("no room on the painted stack, or no such answer\n");
        exit(1);
    }

    size_t taken = (size_t)(frame - (uint8_t *)&area[word]);
    if (taken > most) {
        printf("a call took %zu bytes\n", taken);
        exit(1);
    }
    greatest = taken > greatest ? taken : greatest;
    paint(word);
    if (number == NAZGWERN_TOO_SHORT)
        short_seen = true;
    else
        seen[number] = true;
    calls++;
}

static void report(const char *name)
{
    for (size_t word = 0; word < lowest; word++)
        if (area[word] != PAINT) {
            printf("a call wrote below the painted stack that it was given\n");
            exit(1);
        }
    printf("%s: %zu bytes; %zu calls, answers", name, greatest, calls);
    for (int i = 0; i <= GREATEST_NUMBER; i++)
        if (seen[i])
            printf(" %d", i);
    printf("%s\n", short_seen ? ", too short" : "");
    memset(seen, 0, sizeof seen);
    short_seen = false;
    greatest = calls = 0;
}

static void put(struct list *list, uint64_t value, size_t size)
{
    for (; size > 0; size--) {
        list->bytes[list->length++] = value & 0xff;
        value >>= 8;
    }
}

static void put_text(struct list *list, const char *text)
{
    for (; *text != 0; text++)
        put(list, (uint8_t)*text, 1);
}

static void put_head(struct list *list, size_t length, uint16_t kind)
{
    put(list, length, 2);
    put(list, kind, 2);
}

static void token(uint16_t kind, uint64_t payload, size_t size)
{
    put_head(&tokens, 8 + size, kind);
    put(&tokens, 0, 8);
    put(&tokens, payload, size);
}

/* One operand or a part of one, after a comma. */
static void operand(char letter)
{
    token(11, 0, 0);
    switch (letter) {
    case 'r': token(3, 8, 1); break;
    case 'f': token(4, 8, 1); break;
    case 'n': token(5, 0x12345678, 8); break;
    case 'i': token(5, 4, 8); break;
    case 's': token(8, 'x', 1); break;
    case 'p': token(8, 'x', 1), token(9, 0, 0), token(5, 4, 8); break;
    case 'm': token(10, 0, 0), token(5, 4, 8); break;
    case 'b': token(14, 0, 0), token(3, 9, 1), token(15, 0, 0); break;
    case 'o': token(14, 0, 0), token(3, 9, 1); break;
    case '(': token(14, 0, 0); break;
    case '-': token(10, 0, 0); break;
    }
}

/* A descriptor of this encoding; `more` sets the flag or gives the alternative that it may have. */
static void descriptor(uint8_t encoding, bool more, const char *name)
{
    bool sized = encoding >= 15 && encoding <= 18;
    bool flagged = encoding == 17 || encoding == 19 || encoding == 20;

    put_head(&descriptors, 8 + strlen(name), 33);
    put(&descriptors, encoding % 6, 1);
    put(&descriptors, 35, 1);
    put(&descriptors, encoding, 1);
    put(&descriptors, sized ? encoding % 3 : 0, 1);
    put(&descriptors, flagged && more, 1);
    put(&descriptors, encoding == 7 && more ? 0x210101 : 0, 3); /* present, Func 33 */
    put_text(&descriptors, name);
}

static void named(const char *name)
{
    mnemonic.length = 0;
    put_head(&mnemonic, 8 + strlen(name), 32);
    put(&mnemonic, 0, 8);
    put_text(&mnemonic, name);
}

static void line(const char *operands)
{
    tokens.length = 0;
    for (; *operands != 0; operands++)
        operand(*operands);
    measure(line_call);
}

/* Every line that goes on from these operands, four at most. */
static void lines(char operands[5], size_t length)
{
    line(operands);
    if (length == 4)
        return;
    for (const char *letter = "rfnispmbo(-"; *letter != 0; letter++) {
        operands[length] = *letter;
        lines(operands, length + 1);
        operands[length] = 0;
    }
}

/* The call with the list's first record of another kind, and with the list cut short. */
static void damaged(struct list *list, void (*call)(void))
{
    list->bytes[2] ^= 0x40;
    measure(call);
    list->bytes[2] ^= 0x40;
    list->length--;
    measure(call);
    list->length++;
}

static void all_lines(void)
{
    char operands[5] = "";

    for (int encoding = 0; encoding < ENCODINGS; encoding++)
        for (int more = 0; more < 2; more++) {
            descriptors.length = 0;
            descriptor((uint8_t)encoding, more == 1, "t");
            lines(operands, 0);
        }
    for (int pseudo = 0; pseudo <= PSEUDOS; pseudo++) {
        named(pseudos[pseudo]);
        lines(operands, 0);
    }
}

/* As many records as fit the list, each of so many bytes besides a name of one or two bytes. The
   names fall. */
static void fill(struct list *list, size_t size, void (*add)(const char *name))
{
    size_t pairs = (sizeof list->bytes - ('~' - ' ' + 1) * (size + 1)) / (size + 2);

    list->length = 0;
    for (char first = '~'; first >= ' '; first--) {
        for (char second = '~'; second >= ' ' && pairs > 0; second--, pairs--)
            add((const char[]){first, second, 0});
        add((const char[]){first, 0});
    }
}

/* The same with names of fifteen bytes, which differ in most of them. */
static void fill_long(struct list *list, size_t size, void (*add)(const char *name))
{
    char name[16];

    list->length = 0;
    for (unsigned number = sizeof list->bytes / (size + 15); number-- > 0;) {
        unsigned digits = number % 100000;

        snprintf(name, sizeof name, "%05u%05u%05u", digits, digits, digits);
        add(name);
    }
}

/* How many bytes a name has in common with others: each second one two more, each second of these two
   more again, and so on. */
static size_t halved(unsigned number)
{
    size_t alike = 0;

    for (; number % 2 == 0; number /= 2)
        alike += 2;

    return alike;
}

/* The same where the names of 32 numbers begin with a byte more than all before them. */
static size_t deeper(unsigned number)
{
    return number / 32;
}

/* The same as `fill` with names that begin alike. */
static void fill_alike(struct list *list, size_t size, void (*add)(const char *name),
                       size_t (*alike)(unsigned number))
{
    char name[65];

    list->length = 0;
    for (unsigned number = 1; list->length + size + 64 <= sizeof list->bytes; number++) {
        size_t start = alike(number);

        memset(name, 'a', start);
        snprintf(name + start, sizeof name - start, "b%05u", number);
        add(name);
    }
}

static void add_descriptor(const char *name)
{
    descriptor(OFFSET, false, name);
}

/* A line of each meaning with these descriptors. */
static void described_lines(const char *name)
{
    named(name);
    line("rsb");
    for (int pseudo = 0; pseudo <= PSEUDOS; pseudo++) {
        named(pseudos[pseudo]);
        line("rns");
    }
}

/* Lines with the most descriptors: with short names, with long ones and with some that begin alike. */
static void long_lines(void)
{
    fill(&descriptors, 12, add_descriptor);
    described_lines("t");
    fill_long(&descriptors, 12, add_descriptor);
    described_lines("000010000100001");
    fill_alike(&descriptors, 12, add_descriptor, halved);
    described_lines("b00001");
    fill_alike(&descriptors, 12, add_descriptor, deeper);
    described_lines("b00001");
}

/* Refusals 1, 2 and 10 to 12, and an answer and counts that are too short. */
static void refused_lines(void)
{
    struct list *const buffers[] = {&data, &pending, &breakpoints};
    struct list *const lists[] = {&tokens, &mnemonic, &descriptors, &pending, &breakpoints};

    named("t");
    descriptors.length = 0;
    descriptor(OFFSET, false, "t");
    line("rsb");
    for (int i = 0; i < 5; i++)
        damaged(lists[i], line_call);
    for (int i = 0; i < 3; i++)
        for (uint8_t less = 0; less < 2; less++) {
            size_t length = buffers[i]->length;
            buffers[i]->length = (size_t)filled[4 * i] - less;
            measure(line_call);
            buffers[i]->length = length;
        }
    region = 16;
    measure(line_call);
    region = NAZGWERN_NO_REGION;
    measure(line_call);
    region = 0;
    address = 0xffffffff;
    measure(line_call);
    answer_length--;
    measure(line_call);
    answer_length++;
    counts_length--;
    measure(line_call);
    counts_length++;
    descriptor(OFFSET, false, "t");
    measure(line_call);
}

/* Form 0 is a constant, 1 the label x, and 2 here a name that no label has. */
static void reference(struct list *list, int form, uint32_t destination)
{
    put(list, form != 0, 1);
    put(list, form == 0 ? destination : 0, 8);
    put(list, 0, 8);
    put_text(list, form == 0 ? "" : form == 1 ? "x" : "y");
}

static void patch(uint16_t number_of_region, uint32_t offset, int kind, int form, uint32_t to)
{
    put_head(&pending, form == 0 ? 32 : 33, 36);
    put(&pending, number_of_region, 2);
    put(&pending, offset, 4);
    put(&pending, 0, 8);
    put(&pending, (uint64_t)kind, 1);
    reference(&pending, form, to);
}

static void label(uint32_t at, const char *name)
{
    put_head(&labels, 4 + strlen(name), 34);
    put(&labels, at, 4);
    put_text(&labels, name);
}

static void entry_reference(int form, uint32_t to)
{
    entry.length = 0;
    put_head(&entry, form == 0 ? 17 : 18, 38);
    reference(&entry, form, to);
}

static void one_build(int kind, int form, uint32_t offset, uint32_t to, int entry_form)
{
    labels.length = entry.length = pending.length = 0;
    label(to, "x");
    if (entry_form < 3)
        entry_reference(entry_form, to);
    patch(1, 0, kind, form, to);
    patch(0, offset, kind, form, to);
    measure(build_call);
}

static void all_builds(void)
{
    for (int i = 0; i < 2; i++) {
        put_head(&regions, 4 + 8, 35);
        put(&regions, NEAR, 4);
        put(&regions, 0, 8);
    }
    for (int kind = 0; kind < 5; kind++)
        for (int form = 0; form < 3; form++)
            for (int entry_form = 0; entry_form < 4; entry_form++)
                for (int far = 0; far < 2; far++)
                    for (uint32_t offset = 0; offset < 6; offset++)
                        one_build(kind, form, offset, far == 1 ? FAR : NEAR, entry_form);
}

static void add_label(const char *name)
{
    label(NEAR, name);
}

/* As many labels of one name as fit, whose owners fall. */
static void fill_owners(void)
{
    enum { OWNED = 4 + 4 + 4 + 1 };

    labels.length = 0;
    for (uint32_t owner = sizeof labels.bytes / OWNED; owner-- > 0;) {
        put_head(&labels, OWNED - 4, 41);
        put(&labels, NEAR, 4);
        put(&labels, owner, 4);
        put_text(&labels, "x");
    }
}

/* Builds of these labels with the most pendings. */
static void long_builds(void)
{
    entry_reference(1, NEAR);
    for (int kind = 0; kind < 5; kind++)
        for (int form = 0; form < 3; form++) {
            pending.length = 0;
            while (pending.length + (form == 0 ? 36 : 37) <= sizeof pending.bytes)
                patch(0, 0, kind, form, NEAR);
            measure(build_call);
        }
}

/* Builds with the most labels: for all, with short names, with long ones and with some that begin
   alike, of owners, and of one name but for the first. */
static void all_long_builds(void)
{
    fill(&labels, 8, add_label);
    long_builds();
    fill_long(&labels, 8, add_label);
    long_builds();
    fill_alike(&labels, 8, add_label, halved);
    long_builds();
    fill_alike(&labels, 8, add_label, deeper);
    long_builds();
    fill_owners();
    long_builds();
    labels.length = 0;
    label(NEAR, "y");
    while (labels.length + 9 <= sizeof labels.bytes)
        label(NEAR, "x");
    measure(build_call);
}

/* Refusals 1 and 2, and an answer that is too short. */
static void refused_builds(void)
{
    one_build(0, 1, 0, NEAR, 1);
    damaged(&labels, build_call);
    damaged(&entry, build_call);
    damaged(&regions, build_call);
    damaged(&pending, build_call);
    answer_length--;
    measure(build_call);
    answer_length++;
    label(NEAR, "x");
    measure(build_call);
}

/* Every text that goes on from this one by up to so many pieces, with a blank before each. */
static void texts(int left)
{
    size_t length = text.length;

    measure(read_text);
    for (int i = 0; left > 0 && i < PIECES; i++) {
        put_text(&text, " ");
        put_text(&text, pieces[i]);
        texts(left - 1);
        text.length = length;
    }
}

/* Refusals 1 and 23, and an answer that is too short, besides. */
static void all_texts(void)
{
    text.length = 0;
    tokens.length = sizeof tokens.bytes;
    texts(3);
    put_text(&text, "add $t0, 1");
    for (tokens.length = 0; tokens.length < 64; tokens.length++)
        measure(read_text);
    text.length = sizeof over;
    measure(read_text);
    answer_length--;
    measure(read_text);
    answer_length++;
}

/* One word, run from every register's value of 0, 2^31 - 1 and 2^31 on. */
static void one_run(uint32_t word)
{
    static const uint32_t values[] = {0, 0x7fffffff, 0x80000000};

    for (int i = 0; i < 3; i++)
        for (allowance = 0; allowance < 3; allowance++) {
            for (size_t r = 0; r < sizeof registers; r++)
                registers[r] = (uint8_t)(values[i] >> 8 * (r % 4));
            regions.length = 0;
            put_head(&regions, 4 + 4, 35);
            put(&regions, NEAR, 4);
            put(&regions, word, 4);
            measure(dry_run);
        }
}

/* Each instruction, other words, refusals 1 and 28, and buffers that are too short. */
static void all_runs(void)
{
    static const uint32_t immediates[] = {4, 5, 8, 9, 13, 14, 15, 2, 63};

    address = NEAR;
    for (size_t i = 0; i < sizeof immediates / sizeof *immediates; i++)
        for (uint32_t half = 0; half < 2; half++)
            one_run(immediates[i] << 26 | 3 << 16 | (half == 0 ? 1 : 0xffff));
    for (uint32_t function = 0; function < 64; function++)
        for (uint32_t shift = 0; shift < 2; shift++)
            one_run(4 << 21 | 5 << 16 | 6 << 11 | shift << 6 | function);
    one_run(5 << 16 | 6 << 11 | 31 << 6 | 3);
    one_run(0);
    damaged(&regions, dry_run);
    address += 2;
    measure(dry_run);
    address += 2;
    measure(dry_run);
    address = NEAR;
    answer_length--;
    measure(dry_run);
    answer_length++;
    registers_length--;
    measure(dry_run);
    registers_length++;
}

/* Pages with these labels, of 1 to 16 regions with 0 to 9 bytes each, in enough room and in one byte
   less. */
static void pages(void)
{
    for (uint32_t count = 1; count <= 16; count++)
        for (uint32_t bytes = 0; bytes < 10; bytes++) {
            regions.length = 0;
            for (uint32_t i = 0; i < count; i++) {
                put_head(&regions, 4 + bytes, 35);
                put(&regions, NEAR + 4 * i, 4);
                for (uint32_t j = 0; j < bytes; j++)
                    put(&regions, 0xa5, 1);
            }
            wall_length = 73 * count * (1 + (bytes + 3) / 4);
            measure(lay_out);
            wall_length--;
            measure(lay_out);
        }
}

/* Names that are whole and cut, the most labels, the longest page, refusals 1, 2 and 18, and an
   answer that is too short. */
static void all_pages(void)
{
    labels.length = 0;
    pages();
    label(NEAR, "x");
    label(NEAR + 4, "0123456789abcdef0123");
    label(NEAR + 8, "0123456789abcdef01234");
    label(NEAR, "seam");
    pages();
    damaged(&labels, lay_out);
    damaged(&regions, lay_out);
    label(NEAR, "x");
    measure(lay_out);
    wall_length = sizeof wall;
    measure(lay_out);
    answer_length--;
    measure(lay_out);
    answer_length++;

    fill(&labels, 8, add_label);
    pages();
    fill_long(&labels, 8, add_label);
    pages();
    fill_alike(&labels, 8, add_label, halved);
    pages();
    fill_alike(&labels, 8, add_label, deeper);
    pages();
    fill_owners();
    pages();

    regions.length = 0;
    put_head(&regions, 4 + NAZGWERN_MOST_DATA, 35);
    put(&regions, NEAR, 4);
    regions.length += NAZGWERN_MOST_DATA;
    wall_length = NAZGWERN_MOST_PAGE;
    measure(lay_out);
}

/* Measures the entries of a job, from empty lists on; of Release 6 the build is the manual one, and
   its name NULL. */
static void job(const char *line_name, const char *build_name)
{
    struct list *const lists[] = {&tokens, &mnemonic, &descriptors, &labels, &entry, &regions};

    for (size_t i = 0; i < sizeof lists / sizeof *lists; i++)
        lists[i]->length = 0;
    data.length = pending.length = breakpoints.length = 1024;
    memset(filled, 0, sizeof filled);
    address = NEAR;

    /* The first line fills the buffers in part, and all others come after its words and records. */
    named("t");
    descriptor(OFFSET, false, "t");
    line("rsb");
    memcpy(filled, counts, sizeof filled);

    all_lines();
    long_lines();
    refused_lines();
    report(line_name);

    if (build_name == NULL)
        return;
    all_builds();
    all_long_builds();
    refused_builds();
    report(build_name);
}

static void add_macro(const char *name)
{
    size_t length = strlen(name);

    put_head(&macros, 2 + length, 40);
    put(&macros, length, 1);
    put_text(&macros, name);
    put(&macros, 0, 1);
}

/* Calls with the most macros: with short names, with long ones and with some that begin alike, and of
   one name but for the first. */
static void many_macros(void)
{
    fill(&macros, 6, add_macro);
    measure(write_out);
    fill_long(&macros, 6, add_macro);
    measure(write_out);
    fill_alike(&macros, 6, add_macro, halved);
    measure(write_out);
    fill_alike(&macros, 6, add_macro, deeper);
    measure(write_out);
    macros.length = 0;
    add_macro("y");
    while (macros.length + 7 <= sizeof macros.bytes)
        add_macro("x");
    measure(write_out);
}

/* What stands in the buffers now is what each further line comes after. */
static void keep_filled(void)
{
    memcpy(filled, counts, sizeof filled);
    uses_filled.length = filled[12] + 256u * filled[13];
    memcpy(uses_filled.bytes, uses.bytes, uses_filled.length);
}

/* Lines by labels of which as many are there as fit. */
static void long_indexed_lines(void)
{
    struct list kept = pending;

    pending.length = filled[4];
    make_index();
    filled[12] = answer[20], filled[13] = answer[21];
    memcpy(counts, filled, sizeof counts);
    keep_filled();
    pending.length = kept.length;
    named("t");
    line("rsb");
    named("la");
    line("rs");
}

/* Lines with an index in each job, from empty lists on: refusals of the labels and of the index too,
   and a job that there is not. */
static void indexed_lines(void)
{
    line_call = do_indexed;
    counts_length = NAZGWERN_INDEXED_COUNTS_BYTES;
    for (job_number = 0; job_number < 3; job_number++) {
        descriptors.length = labels.length = uses_filled.length = 0;
        data.length = pending.length = breakpoints.length = uses.length = 1024;
        memset(filled, 0, sizeof filled);
        address = NEAR;
        named("t");
        descriptor(OFFSET, false, "t");
        label(NEAR, "x");
        line("rsb");
        keep_filled();
        all_lines();
        long_lines();
        refused_lines();

        descriptors.length = 0;
        descriptor(OFFSET, false, "t");
        address = NEAR;
        line("rsb");
        damaged(&labels, do_indexed);
        for (size_t less = 0; less < 2; less++) {
            uses.length = uses_filled.length - less;
            measure(do_indexed);
        }
        uses.length = 1024;
        uses_filled.bytes[4] ^= 1;
        measure(do_indexed);
        uses_filled.bytes[4] ^= 1;
        label(NEAR, "x");
        measure(do_indexed);
        fill(&labels, 8, add_label);
        long_indexed_lines();
        fill_long(&labels, 8, add_label);
        long_indexed_lines();
        fill_alike(&labels, 8, add_label, halved);
        long_indexed_lines();
        fill_alike(&labels, 8, add_label, deeper);
        long_indexed_lines();
        fill_owners();
        long_indexed_lines();
    }
    measure(do_indexed);
    line_call = do_instruction;
    counts_length = NAZGWERN_COUNTS_BYTES;
}

/* Indexes of the most pendings by the most labels, in as much room as the pendings take, in just
   enough, in one byte less and in none; refusals 1 and 2, and an answer that is too short. */
static void all_indexes(void)
{
    uses_filled.length = 0;
    for (int form = 0; form < 3; form++)
        for (int labelled = 0; labelled < 6; labelled++) {
            labels.length = 0;
            switch (labelled) {
            case 1: fill(&labels, 8, add_label); break;
            case 2: fill_long(&labels, 8, add_label); break;
            case 3: fill_owners(); break;
            case 4: fill_alike(&labels, 8, add_label, halved); break;
            case 5: fill_alike(&labels, 8, add_label, deeper); break;
            }
            pending.length = 0;
            while (pending.length + (form == 0 ? 36 : 37) <= sizeof pending.bytes)
                patch(0, 0, 0, form, NEAR);
            uses.length = pending.length;
            measure(make_index);
            uses.length = answer[20] + 256u * answer[21];
            measure(make_index);
            if (uses.length > 0) {
                uses.length--;
                measure(make_index);
                uses.length = 0;
                measure(make_index);
            }
        }
    damaged(&pending, make_index);
    damaged(&labels, make_index);
    answer_length--;
    measure(make_index);
    answer_length++;
    labels.length = 0;
    label(NEAR, "x");
    label(NEAR, "x");
    measure(make_index);
}

/* Lines of a job while patching runs, for the second of three regions, with the most descriptors, and
   late ones; what each sort of line takes is measured above. */
static void appended_lines(const char *name)
{
    regions.length = 0;
    for (int i = 0; i < 3; i++) {
        put_head(&regions, 4 + 4, 35);
        put(&regions, NEAR, 4);
        put(&regions, 0, 4);
    }
    list_length = regions.length;
    memcpy(list_at_start, regions.bytes, sizeof list_at_start);
    regions.length = 1024;
    tokens.length = mnemonic.length = descriptors.length = 0;
    pending.length = breakpoints.length = 1024;
    memset(filled, 0, sizeof filled);
    line_call = patch_line;
    region = 1;
    done = state = 0;

    named("t");
    descriptor(OFFSET, false, "t");
    line("rsb");
    for (size_t i = 4; i < sizeof filled; i++)
        filled[i] = progress[i];
    long_lines();
    descriptors.length = 0;
    descriptor(OFFSET, false, "t");
    named("t");
    state = 1; /* after the end */
    line("rsb");
    state = 0;
    done = 1; /* below the patched region */
    region = 0;
    line("rsb");
    region = 3;
    line("rsb");
    region = NAZGWERN_NO_REGION;
    line("rsb");
    done = 2;
    line("rsb");
    done = 0;
    progress_length--;
    line("rsb");
    progress_length++;
    region = 0;
    line_call = do_instruction;
    report(name);
}

/* Steps on the lists of the builds, with no, one and two patches done, in each state. */
static void all_steps(const char *name)
{
    regions.length = 0;
    build_call = patch_step;
    for (done = 0; done < 3; done++)
        for (state = 0; state < 3; state++) {
            regions.length = 0;
            all_builds();
            all_long_builds();
            refused_builds();
        }
    done = state = 0;
    kept_length = 0;
    one_build(0, 1, 0, NEAR, 1);
    kept_length = MOST_KEPT;
    progress_length--;
    measure(build_call);
    progress_length++;
    build_call = build;
    report(name);
}

/* Macros A to J, of which each calls the one above it, the first with so many parameters; then a call
   of each, with no argument and with eight, and as much room as each token needs. */
static void all_macros(void)
{
    for (int parameters = 0; parameters <= 8; parameters += 4) {
        macros.length = 0;
        for (int level = 0; level < LEVELS; level++) {
            int given = level == 0 ? parameters : 0;
            put_head(&macros, 3 + 2 * given + 13 * (1 + given), 40);
            put(&macros, 1, 1), put(&macros, 'A' + level, 1), put(&macros, given, 1);
            for (int i = 0; i < given; i++)
                put(&macros, 1, 1), put(&macros, 'a' + i, 1);
            for (int i = 0; i <= given; i++) {
                put_head(&macros, 9, i == 0 ? 8 : 2), put(&macros, 0, 8);
                put(&macros, i == 0 ? (level == 0 ? 'z' : 'A' + level - 1) : 'a' + i - 1, 1);
            }
        }
        for (int level = -1; level < LEVELS; level++)
            for (int arguments = 0; arguments <= 9; arguments++)
                for (written.length = 0; written.length < 160; written.length += 12) {
                    tokens.length = 0;
                    token(8, 'x', 1), token(12, 0, 0), token(8, 'A' + level, 1);
                    for (int i = 0; i < arguments; i++)
                        token(11, 0, 0), token(3, 8, 1);
                    token(13, 0, 0);
                    measure(write_out);
                }
    }
    macros.bytes[0]++; /* a layout that is broken, and two of one name */
    measure(write_out);
    macros.bytes[0]--;
    macros.length = 0;
    for (int i = 0; i < 2; i++)
        put_head(&macros, 3, 40), put(&macros, 1, 1), put(&macros, 'A', 1), put(&macros, 0, 1);
    measure(write_out);
    answer_length--;
    measure(write_out);
    answer_length++;
    many_macros();
}

/* Lookups with no label, with one, with the most, and of one name and as many owners; refusals 1 and
   2, and an answer that is too short. */
static void all_finds(void)
{
    labels.length = 0;
    measure(find_label);
    label(NEAR, "x");
    measure(find_label);
    damaged(&labels, find_label);
    label(NEAR, "x");
    measure(find_label);
    answer_length--;
    measure(find_label);
    answer_length++;
    fill(&labels, 8, add_label);
    measure(find_label);
    fill_long(&labels, 8, add_label);
    measure(find_label);
    fill_alike(&labels, 8, add_label, halved);
    measure(find_label);
    fill_alike(&labels, 8, add_label, deeper);
    measure(find_label);
    fill_owners();
    measure(find_label);
}

/* Ranges of each form, an empty one, refusal 30, and an answer that is too short. */
static void all_counts(void)
{
    static const uint32_t ends[] = {0, 1, 0x7fff, 0x8000, 0xffff, 0x10000, 0x12345678, 0xffffffff};
    enum { ENDS = sizeof ends / sizeof ends[0] };

    for (int start = 0; start < ENDS; start++)
        for (int end = 0; end < ENDS; end++) {
            address = ends[start], allowance = ends[end];
            measure(count_forms);
        }
    answer_length--;
    measure(count_forms);
    answer_length++;
}

int main(void)
{
    paint(0);

    emit = nazgwern_do_instruction, finish = nazgwern_build;
    job("nazgwern_do_instruction", "nazgwern_build");

    emit = nazgwern_do_manual_instruction, finish = nazgwern_build_manual;
    job("nazgwern_do_manual_instruction", "nazgwern_build_manual");

    emit = nazgwern_do_release_6_instruction;
    job("nazgwern_do_release_6_instruction", NULL);

    append = nazgwern_patch_line, step = nazgwern_patch_step;
    appended_lines("nazgwern_patch_line");
    all_steps("nazgwern_patch_step");
    append = nazgwern_patch_manual_line, step = nazgwern_patch_step_manual;
    appended_lines("nazgwern_patch_manual_line");
    all_steps("nazgwern_patch_step_manual");
    append = nazgwern_patch_release_6_line;
    appended_lines("nazgwern_patch_release_6_line");

    all_finds();
    report("nazgwern_find_label");

    all_counts();
    report("nazgwern_count_forms");

    all_texts();
    report("nazgwern_read_text");

    all_runs();
    report("nazgwern_dry_run");

    most = MOST_OF_MACROS;
    all_macros();
    report("nazgwern_write_out");

    most = MOST_OF_PAGE;
    all_pages();
    report("nazgwern_lay_out");

    indexed_lines();
    report("nazgwern_do_indexed");

    lowest = 1;
    most = MOST_OF_INDEX;
    all_indexes();
    report("nazgwern_make_index");

    return 0;
}
