/* The library nazgwern: the functions of the MIPS32 assembler core, for C and Rust on x86-64.

   RECORDS. A list is a sequence of records. Every record begins with a 2-byte length (of the bytes
   after the head) and a 2-byte kind. All numbers are little-endian. A location is a 4-byte source
   and a 4-byte index. Names and texts use bytes 0x20 to 0x7E. In brackets stands how many bytes a
   field has.

     kind      record      body
     0 to 15   token       location, payload
     32        mnemonic    location, 0 to 16 bytes
     33        descriptor  opcode class, key, encoding, size, flag, alternative present, its class,
                           its key (1 each), name of 1 to 16
     34        label       address (4), name of 1 to 64: the label for all files
     35        region      address (4), data
     36        pending     region (2), offset (4), location, patch kind (1), form (1), value or
                           added offset (8), the name's location, name of 1 to 64
     37        breakpoint  location, 1 to 5 pcs (4 each), one a word
     38        entry       form (1), value or added offset (8), the name's location, name of 1 to 64
     39        use         known (1: 1 or 0), count of list numbers (2) and these (2 each), owner or
                           source (4), name of 1 to 64: an index of label uses has one for each
                           label or unknown name that pendings name
     40        macro       name of 1 to 64, count of parameters (1) and their names of 1 to 64, each
                           name after a length byte; then the body's token records
     41        label       address (4), owner (4, below 0xFFFFFFFF), name of 1 to 64: the label of
                           one file, the source that is its owner

   token         0 Comment, 1 Directive, 2 Parameter, 7 StringLiteral: a text of 0 to 64 bytes
                 3 Register, 4 FPRegister: one byte, 0 to 31
                 5 IntegerLiteral: eight bytes; 6 FloatLiteral: eight bytes, the bits of a double
                 8 Symbol: 1 to 64 bytes
                 9 Plus, 10 Minus, 11 Comma, 12 Colon, 13 NewLine, 14 LeftBrace, 15 RightBrace:
                 no payload
   opcode class  0 Op, 1 Func, 2 Special, 3 Algebra, 4 Cop1, 5 Cop1I; a key is any byte
   encoding      0 Register, 1 RegisterShift, 2 Source, 3 Destination, 4 Inputs, 5 Sham,
                 6 SpecialBranch, 7 Immediate, 8 LoadImmediate, 9 Jump, 10 Branch, 11 BranchZero,
                 12 Parameterless, 13 Offset, 14 FPOffset, 15 FP3Register, 16 FP2Register,
                 17 FPMove, 18 FPCond, 19 FPCrossMove, 20 FPBranch
   size          0 Single, 1 Double, 2 Word, for encodings 15 to 18; else 0
   flag          0 or 1, for encodings 17, 19 and 20; else 0
   alternative   present is 0 or 1, for encoding 7; else, and where it is 0, class and key are 0
   patch kind    0 Branch, 1 Jump, 2 Lower, 3 Upper, 4 Full
   form          0 constant: the name's location is zero and there is no name; 1 name

   LIMITS. A buffer has at most 65,536 bytes, a page's alone 1,195,959, as many as the longest page
   has, and a region's data at most 65,528. The answer, the counts, the registers and the record of
   patching are no buffers in this sense and may be longer. One accepted line adds at most 20 bytes to the data
   (five words), 200 to the pending list (two records with names of 64 bytes) and 32 to the
   breakpoints (a record of five pcs); and with as much room left in each, and data of at most
   65,508 bytes, no line is refused with 12. Both are proved: line_grows and room_enough in
   crates/routine/proofs. A refused call adds nothing.

   BUFFERS. Each goes as a pointer, then its length in bytes. The caller answers for three things
   that no call can test: a pointer is not null, also where the length is 0; behind it are as many
   bytes as the length says; and no buffer that a call may write (one that is not const here)
   overlaps any other of the call, while those that are only read may. Nothing needs to be aligned.
   Whatever the bytes and the numbers are, a call ends and has an answer. It keeps nothing behind:
   all state is in the buffers.

   ANSWER. Six numbers of four bytes: number, source, index, a, b, and a line's position, a build's
   entry, a text's, a written-out list's or an index's fill, a dry run's pc, a page's length, or how
   many pendings the steps of patching have patched. Number 0 is an accepted call, 1 to 30 are
   refusals; source and index are the refusal's location, a is given by its low 32 bits, and
   numbers that are not named here are 0. Of an accepted line a says how its constant is loaded: 0
   none is, 1 addiu alone, 2 ori alone, 3 lui alone, 4 both halves. The number is returned too. On
   refusal the answer is written and no other lent byte changes, but where a step of patching puts
   back what it has patched. If the answer has fewer than 24 bytes, or the counts fewer than 12 (with
   an index fewer than 16, a range's fewer than 32), the registers fewer than 128 or patching's state
   fewer than 20, or a job's number is over 2, the call returns NAZGWERN_TOO_SHORT and changes nothing
   at all. Bytes behind these stay as they are.

      1  A record breaks the layout or sits in the wrong list, a buffer is over its limit, a fill
         count is over its buffer's length, the region's number is none, or an index is not that
         of the filled pending list by these labels (a: buffer in argument order from 0, b: the
         byte place in it, of a wrong index 0).
      2  Two descriptors or two macros share a name, or two labels a name and an owner, or a name
         and kind 34 (a: buffer, b: place of the later).
      3  Neither descriptor nor pseudo-instruction has the mnemonic.
      4  The tokens end before an operand does.
      5  A register was due (a: kind of the token that was met).
      6  A constant was due (a: the same).
      7  A label was due (a: the same).
      8  A right brace was due (a: the same).
      9  An immediate without alternative lies outside -32,768 to 32,767 (a: -8000, b: 32767).
     10  No region is selected.
     11  Region address plus data length before some word exceeds 2^32 - 1 (a: address, b: that
         length).
     12  The words, pending or breakpoint records lack space, or data would exceed 65,528 bytes
         (a: 0, 1 or 2, the first that is short).
     13  The build's entry name is unknown.
     14  A patch ends past its region's data.
     15  A patch's name is unknown.
     16  A branch or jump is out of range (a: destination, b: pc).
     17  The index buffer is too short for the index.
     18  The page buffer is too short for the page.
     19  In a manual job, the shift amount of encoding 5 lies outside 0 to 31.
     20  In a manual job, the condition code of encoding 17, 18 or 20 lies outside 0 to 7.
     21  A byte starts no token, a byte of a comment or string lies outside 0x20 to 0x7E, or a
         string is not closed on its line.
     22  A text is over 64 bytes, a parameter has no name, a number is over 64 bits, 0x has no
         digit, or a register is unknown.
     23  The token buffer is too short for the token.
     24  A macro's call has a wrong count of arguments.
     25  A macro's call is on a ninth level.
     26  The written-out buffer is too short for the token.
     27  In a Release 6 job, a line of encoding 4 has a third operand, or the descriptor's opcode is
         of class 1 with the key 18 modulo 64.
     28  A dry run's pc is no multiple of four, or no whole word stands there.
     29  While patching runs, a line's region is below that of a patched pending; or patching has
         ended or was refused.
     30  The range's start exceeds its end.

   The location is zero for 1, 2, 18, 28 and 30, and for 17 where an index is made afresh; the
   mnemonic's for 3, 4, 9 to 12, 17 of a line, 19, 20, 27 and 29; for 5 to 8 that of the token that
   was met, or the mnemonic's at a NewLine; the name's for 13 and 15, and the pending's for 14 and
   16; for 21 to 23 the call's source and the place of the token's first byte; for 24 and 25 that of
   the call's name, and for 26 that of the token without room.
   docs/REFUSALS.md says what to do about each.

   STACK. Measured, not proved, on x86-64 with gcc as the caller's compiler, arguments and return
   address counted: link/stack found for no call more bytes than these.

     24,120  nazgwern_do_instruction, and by the manual and for Release 6
     34,936  nazgwern_build, and by the manual
     35,496  nazgwern_patch_step, and by the manual
     31,912  nazgwern_patch_line, and by the manual and for Release 6
     56,008  nazgwern_do_indexed
     96,632  nazgwern_make_index
     46,056  nazgwern_write_out
     49,272  nazgwern_lay_out
     31,080  nazgwern_find_label
        952  nazgwern_read_text
        648  nazgwern_dry_run
         56  nazgwern_count_forms

   The code may also use the 128 bytes below its stack pointer, as the x86-64 convention allows. */
#ifndef NAZGWERN_H
#define NAZGWERN_H

#include <stddef.h>
#include <stdint.h>

#ifdef __cplusplus
extern "C" {
#endif

#define NAZGWERN_ANSWER_BYTES 24
#define NAZGWERN_COUNTS_BYTES 12
#define NAZGWERN_INDEXED_COUNTS_BYTES 16
#define NAZGWERN_FORM_COUNTS_BYTES 32
#define NAZGWERN_REGISTERS_BYTES 128
#define NAZGWERN_STATE_BYTES 20
#define NAZGWERN_NO_REGION 65535
#define NAZGWERN_TOO_SHORT UINT32_C(0xFFFFFFFF)

/* The limits above. */
#define NAZGWERN_MOST_BYTES 65536
#define NAZGWERN_MOST_DATA 65528
#define NAZGWERN_MOST_PAGE 1195959
#define NAZGWERN_LINE_DATA 20
#define NAZGWERN_LINE_PENDING 200
#define NAZGWERN_LINE_BREAKPOINTS 32

/* Emits one line: appends its words to the region data, and its records to the filled parts of
   pending and breakpoints.
   tokens       the operands of the line, kinds 0 to 15, read from the token position on
   mnemonic     one record of kind 32
   descriptors  the instruction table, kind 33; where its names rise, byte by byte, as those of
                link/instructions.h do, one pass tells that none repeats, and in any other order
                they are sorted at each call
   data         the region's data; its fill count is the data length
   pending      kind 36 as far as filled
   breakpoints  kind 37 as far as filled
   counts       the three fill counts, four bytes each: region data, pending, breakpoints
   position     a count of tokens
   region       the number of the selected region, 0 to 15, or 65535 for none
   address      the region's address
   The last number of the answer is the position, on refusal too. */
uint32_t nazgwern_do_instruction(
    const uint8_t *tokens, size_t tokens_length,
    const uint8_t *mnemonic, size_t mnemonic_length,
    const uint8_t *descriptors, size_t descriptors_length,
    uint8_t *data, size_t data_length,
    uint8_t *pending, size_t pending_length,
    uint8_t *breakpoints, size_t breakpoints_length,
    uint8_t *counts, size_t counts_length,
    uint32_t position, uint16_t region, uint32_t address,
    uint8_t *answer, size_t answer_length);

/* The same for a manual job: size Word is 20 in the field fmt, in place of 18; abs begins with
   sra $at,source,31; and a shift amount or condition code out of range is refused with 19 or 20,
   tested as 64 bits when the operands are read, before 9. */
uint32_t nazgwern_do_manual_instruction(
    const uint8_t *tokens, size_t tokens_length,
    const uint8_t *mnemonic, size_t mnemonic_length,
    const uint8_t *descriptors, size_t descriptors_length,
    uint8_t *data, size_t data_length,
    uint8_t *pending, size_t pending_length,
    uint8_t *breakpoints, size_t breakpoints_length,
    uint8_t *counts, size_t counts_length,
    uint32_t position, uint16_t region, uint32_t address,
    uint8_t *answer, size_t answer_length);

/* The same for a Release 6 job: as in a manual job, but that function 8 under encoding 2 becomes 9,
   so that jr $ra is 03e00009, and that refusal 27 is looked at straight after 20. Its build is
   nazgwern_build_manual. */
uint32_t nazgwern_do_release_6_instruction(
    const uint8_t *tokens, size_t tokens_length,
    const uint8_t *mnemonic, size_t mnemonic_length,
    const uint8_t *descriptors, size_t descriptors_length,
    uint8_t *data, size_t data_length,
    uint8_t *pending, size_t pending_length,
    uint8_t *breakpoints, size_t breakpoints_length,
    uint8_t *counts, size_t counts_length,
    uint32_t position, uint16_t region, uint32_t address,
    uint8_t *answer, size_t answer_length);

/* Builds: patches the region list in place.
   labels       kinds 34 and 41, in any order. A name stands for the label whose owner is the source
                in the name's location; if there is none, for the label of kind 34
   entry        at most one record of kind 38; without one the entry is 0x00400000
   regions      1 to 16 records of kind 35, numbered from 0
   pending      kind 36, the filled part only
   The last number of the answer is the entry, and 0 on refusal. */
uint32_t nazgwern_build(
    const uint8_t *labels, size_t labels_length,
    const uint8_t *entry, size_t entry_length,
    uint8_t *regions, size_t regions_length,
    const uint8_t *pending, size_t pending_length,
    uint8_t *answer, size_t answer_length);

/* The same for a manual job: a branch is out of range from -32,769 and from 32,768 words on, and
   not only past -65,536 and 65,535. */
uint32_t nazgwern_build_manual(
    const uint8_t *labels, size_t labels_length,
    const uint8_t *entry, size_t entry_length,
    uint8_t *regions, size_t regions_length,
    const uint8_t *pending, size_t pending_length,
    uint8_t *answer, size_t answer_length);

/* Counts the constants from start to end, both counted, by the form that loads each.
   counts       four numbers of eight bytes: addiu, ori, lui, both halves; only written
   The last number of the answer is 0. */
uint32_t nazgwern_count_forms(
    uint32_t start, uint32_t end,
    uint8_t *counts, size_t counts_length,
    uint8_t *answer, size_t answer_length);

/* Reads a text into token records, from the start of the token buffer on. docs/TEXT.md says what
   the tokens of a text are.
   text         any bytes
   source       the source of each token's location; its index is the place of the first byte
   tokens       kinds 0 to 5 and 7 to 15; only written, and what stands behind the records stays
   The last number of the answer is the fill of the token buffer, and 0 on refusal. */
uint32_t nazgwern_read_text(
    const uint8_t *text, size_t text_length, uint32_t source,
    uint8_t *tokens, size_t tokens_length,
    uint8_t *answer, size_t answer_length);

/* Writes the calls of macros in a token list out, from the start of the written-out buffer on. A
   call is a Symbol of exactly a macro's name, first on its line but for labels, their Colons and
   comments, up to NewLine or the end; docs/MACROS.md says what it is replaced by.
   tokens       kinds 0 to 15
   macros       kind 40, each with a name of its own, up to 8 different parameters, and no other
                Parameter in its body; a body calls those before it in the list, to 8 levels
   out          only written, and what stands behind the records stays; what is written is a token
                list for nazgwern_do_instruction
   The last number of the answer is the fill of the written-out buffer, and 0 on refusal. */
uint32_t nazgwern_write_out(
    const uint8_t *tokens, size_t tokens_length,
    const uint8_t *macros, size_t macros_length,
    uint8_t *out, size_t out_length,
    uint8_t *answer, size_t answer_length);

/* Runs an image dry: nop, addiu, addi, add, addu, sub, subu, slt, sltu, ori, xori, xor, nor, lui,
   sra, beq, bne and j, without delay slots.
   regions      1 to 16 records of kind 35, numbered from 0; where they overlap the lowest number
                that has the whole word is read
   registers    32 numbers of four bytes: given, and as the run leaves them, the first as 0; a
                refused call leaves all of them as given, the first too
   pc           where the run starts
   allowance    the most steps that it takes
   Of an accepted run a is why it stopped: 0 the allowance is used up, 1 the pc has no whole word,
   2 another word or a field that is not zero where the manual wants it zero, 3 signed overflow of
   add, addi or sub. b is the number of steps taken. The last number of the answer is the pc, on
   refusal the one that was given. After reason 0 a next call with the registers as they were left
   and with that pc goes on: two calls give what one with both allowances gives. But if no
   whole word stands at that pc, behind the last word or where a branch or a jump led out of the
   regions, the next call is refused with 28, where one call with more steps allowed would have
   stopped there for reason 1. */
uint32_t nazgwern_dry_run(
    const uint8_t *regions, size_t regions_length,
    uint8_t *registers, size_t registers_length,
    uint32_t pc, uint32_t allowance,
    uint8_t *answer, size_t answer_length);

/* Lays an image out as a page for the wall, from the start of the page buffer on: for each region
   a line of its number, then a line of pc, word and label for each four bytes, each line 72 bytes
   and a newline. docs/PAGE.md shows pages.
   labels       kinds 34 and 41, as for a build; of those at a pc the smallest name is shown
   regions      1 to 16 records of kind 35, numbered from 0
   page         only written, and what stands behind the page stays; 73 bytes for each line
   The last number of the answer is the page's length, and 0 on refusal. */
uint32_t nazgwern_lay_out(
    const uint8_t *labels, size_t labels_length,
    const uint8_t *regions, size_t regions_length,
    uint8_t *page, size_t page_length,
    uint8_t *answer, size_t answer_length);

/* Patches by steps, so that lines may be added in between: each call patches one pending, in the
   order in which a build would, or finds that none is left.
   labels       kinds 34 and 41, as for a build
   entry        at most one record of kind 38, as for a build
   regions      the buffer of the region list: 1 to 16 records of kind 35 as far as filled
   pending      the buffer of the pendings: kind 36 as far as filled, only read
   kept         the bytes that stood where a pending was patched, four for each of the list's
                pendings at least; 7,280 are always enough
   state        five numbers of four bytes: the fill counts of regions, pending and breakpoints,
                how many pendings are patched (0 before the first step), and whether patching runs
                (0), has ended (1) or was refused (any other)
   Of a step that is not refused a is 0 where it patched a pending, and the last number is then how
   many are patched; a is 1 where none is left, and the last number is then the entry, as of every
   later step. The refusals are a build's. 14, 15 and 16 put all that was patched back, and set the
   number of patches to 0 and the state to 2; every later step is refused as a build would be. The
   others change nothing. All calls of one patching get what the last one left. */
uint32_t nazgwern_patch_step(
    const uint8_t *labels, size_t labels_length,
    const uint8_t *entry, size_t entry_length,
    uint8_t *regions, size_t regions_length,
    const uint8_t *pending, size_t pending_length,
    uint8_t *kept, size_t kept_length,
    uint8_t *state, size_t state_length,
    uint8_t *answer, size_t answer_length);

/* The same for a manual or a Release 6 job. */
uint32_t nazgwern_patch_step_manual(
    const uint8_t *labels, size_t labels_length,
    const uint8_t *entry, size_t entry_length,
    uint8_t *regions, size_t regions_length,
    const uint8_t *pending, size_t pending_length,
    uint8_t *kept, size_t kept_length,
    uint8_t *state, size_t state_length,
    uint8_t *answer, size_t answer_length);

/* Emits one line while patching runs: its words go behind the data of its region in the region
   list, and the records behind it move up; its pending and breakpoint records go behind the filled
   parts, as of nazgwern_do_instruction.
   regions      the buffer of the region list, filled as state says
   state        as for nazgwern_patch_step; its counts are those after an accepted line
   region       0 to 15 and listed, or 65535 for none; the address is that of its record
   A line is refused with 29, looked at straight after 10, where its region is below that of a
   pending that is patched, or where patching has ended or was refused. Refusal 1 has the region
   list where nazgwern_do_instruction has the data; a pending that is patched and not there is named
   by the end of the list, and a region that is not listed by place 0 of the region list. The last
   number of the answer is the position, on refusal too. */
uint32_t nazgwern_patch_line(
    const uint8_t *tokens, size_t tokens_length,
    const uint8_t *mnemonic, size_t mnemonic_length,
    const uint8_t *descriptors, size_t descriptors_length,
    uint8_t *regions, size_t regions_length,
    uint8_t *pending, size_t pending_length,
    uint8_t *breakpoints, size_t breakpoints_length,
    uint8_t *state, size_t state_length,
    uint32_t position, uint16_t region,
    uint8_t *answer, size_t answer_length);

/* The same for a manual job. */
uint32_t nazgwern_patch_manual_line(
    const uint8_t *tokens, size_t tokens_length,
    const uint8_t *mnemonic, size_t mnemonic_length,
    const uint8_t *descriptors, size_t descriptors_length,
    uint8_t *regions, size_t regions_length,
    uint8_t *pending, size_t pending_length,
    uint8_t *breakpoints, size_t breakpoints_length,
    uint8_t *state, size_t state_length,
    uint32_t position, uint16_t region,
    uint8_t *answer, size_t answer_length);

/* The same for a Release 6 job. */
uint32_t nazgwern_patch_release_6_line(
    const uint8_t *tokens, size_t tokens_length,
    const uint8_t *mnemonic, size_t mnemonic_length,
    const uint8_t *descriptors, size_t descriptors_length,
    uint8_t *regions, size_t regions_length,
    uint8_t *pending, size_t pending_length,
    uint8_t *breakpoints, size_t breakpoints_length,
    uint8_t *state, size_t state_length,
    uint32_t position, uint16_t region,
    uint8_t *answer, size_t answer_length);

/* Looks a name up in a label list, through an ordered index that the call makes.
   labels       kinds 34 and 41, as for a build
   name         the bytes of the name; one that no label can have, as it is empty or longer than
                64 bytes, is answered with none
   source       the file that the name stands in: its own label goes before the one for all
   a is 1 where there is a label and 0 for none, b how many names were compared, at most 32. The
   last number of the answer is the label's address, and 0 for none and on refusal. */
uint32_t nazgwern_find_label(
    const uint8_t *labels, size_t labels_length,
    const uint8_t *name, size_t name_length, uint32_t source,
    uint8_t *answer, size_t answer_length);

/* Emits one line as nazgwern_do_instruction does, and updates an index of label uses: for each
   label that a filled pending names, and for each unknown name, the list numbers of those pendings,
   from 0 and constants counted, in rising order. Labels are told apart by name and owner, unknown
   names by name and source. Records are in the order of their names, byte by byte; of equal names
   the known go first, and then the lesser owner or source.
   labels       kinds 34 and 41, as for a build
   index        kind 39 as far as filled: the index of the filled pending list by these labels, as
                the last call or nazgwern_make_index left it. With no pendings it is empty. A buffer
                as long as the pending list after the line is never too short: proved, line_roomy
                in crates/indexed_core/proofs
   counts       the four fill counts, four bytes each: region data, pending, breakpoints, index
   job          0 as nazgwern_do_instruction, 1 a manual job, 2 a Release 6 job
   Refusal 1 is looked at for labels (6) and index (7) behind the other six buffers, 2 for
   descriptors (2) and then labels (6), and 17 straight after 12. All other arguments, and the
   answer, are those of nazgwern_do_instruction. */
uint32_t nazgwern_do_indexed(
    const uint8_t *tokens, size_t tokens_length,
    const uint8_t *mnemonic, size_t mnemonic_length,
    const uint8_t *descriptors, size_t descriptors_length,
    uint8_t *data, size_t data_length,
    uint8_t *pending, size_t pending_length,
    uint8_t *breakpoints, size_t breakpoints_length,
    const uint8_t *labels, size_t labels_length,
    uint8_t *index, size_t index_length,
    uint8_t *counts, size_t counts_length,
    uint32_t position, uint16_t region, uint32_t address, uint32_t job,
    uint8_t *answer, size_t answer_length);

/* Makes the index of the first fill bytes of a pending buffer by these labels, from the start of
   the index buffer on. One of at least fill bytes is never too short: proved, make_roomy in
   crates/indexed_outcome/proofs.
   pending      kind 36 as far as filled
   labels       kinds 34 and 41, as for a build
   index        only written, and what stands behind the records stays
   The last number of the answer is the index's fill, and 0 on refusal. */
uint32_t nazgwern_make_index(
    const uint8_t *pending, size_t pending_length, uint32_t fill,
    const uint8_t *labels, size_t labels_length,
    uint8_t *index, size_t index_length,
    uint8_t *answer, size_t answer_length);

#ifdef __cplusplus
}
#endif

#endif
