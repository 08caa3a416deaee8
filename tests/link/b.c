/*
 * The archive linked into a C program: the scope document's image B, its examples P2, P3 and P5, posts to B and the sheet of
 * P2 through the header, every byte compared; B in version 2, with clearances; a record's part; programs and their texts,
 * both ways; each refusal of an image, a text and a program, and the refusals 1, 2, 3, 13, 14 and 15 of calls that write,
 * which leave the output as it was; the sentences of the numbers and the version.
 */
#include <stdint.h>
#include <stdio.h>
#include <string.h>

#include "rithennaw.h"

/* ---- checks: each is counted, and one that fails is named */

static unsigned checks, faults;

static void expect(int holds, const char *what)
{
    checks++;
    if (!holds) {
        faults++;
        fprintf(stderr, "b.c: %s\n", what);
    }
}

static void expect_number(unsigned long long is, unsigned long long should, const char *call, const char *what)
{
    checks++;
    if (is != should) {
        faults++;
        fprintf(stderr, "b.c: %s: %s is %llu, not %llu\n", call, what, is, should);
    }
}

/* ---- images, programs and texts: an array with room for the longest image, and a length */

struct image {
    uint8_t bytes[RITHENNAW_IMAGE_MAX];
    size_t length;
};

static void put(struct image *b, unsigned byte)
{
    b->bytes[b->length++] = (uint8_t)byte;
}

/* A number in `width` bytes, big-endian. */
static void set_number(uint8_t *at, unsigned width, uint32_t x)
{
    while (width-- > 0) {
        *at++ = (uint8_t)(x >> (8 * width));
    }
}

static void put_number(struct image *b, unsigned width, uint32_t x)
{
    set_number(b->bytes + b->length, width, x);
    b->length += width;
}

/* Text that ends with a 0 byte, which is no part of it. */
static void put_words(struct image *text, const char *words)
{
    while (*words != '\0') {
        put(text, (unsigned char)*words++);
    }
}

/* Where the fields of B stand: version, program length and program; turn slot; slots 0 to 15. */
enum {
    SEND_LABEL_AT = 3 + 2,
    TURN_SLOT_AT = 3 + 16,
    SLOT_0_AT = TURN_SLOT_AT + 1,
    SLOT_5_AT = SLOT_0_AT + 2 + 37 + 4 * 2,
    B_LENGTH = SLOT_5_AT + 2 + 37 + 10 * 2,
    /* in a slot, behind its 2-byte length: kind, label, in version 2 a clearance, spare, place, registers */
    KIND_AT = 2,
    LABEL_AT = 2 + 1,
    CLEARANCE_AT = 2 + 2,
    SPARE_AT = 2 + 2,
    PLACE_AT = 2 + 3,
    REGISTERS_AT = 2 + 5
};

static const uint8_t program[16] = {
    0x08, 0x01, 0x00, 0x02, 0x00, 0x00, 0x00, 0x00, 0x09, 0x03, 0x04, 0x00, 0x00, 0x00, 0x00, 0x00
};

/* A live task at a place, with registers 1 and 2, without mail. */
static void put_task(struct image *b, unsigned place, uint32_t r1, uint32_t r2)
{
    unsigned r;
    put_number(b, 2, 37);
    put(b, 1);
    put(b, 0);
    put(b, 0);
    put_number(b, 2, place);
    for (r = 0; r < 8; r++) {
        put_number(b, 4, r == 1 ? r1 : r == 2 ? r2 : 0);
    }
}

static void make_b(struct image *b)
{
    unsigned i;
    b->length = 0;
    put(b, 1);
    put_number(b, 2, 16);
    for (i = 0; i < 16; i++) {
        put(b, program[i]);
    }
    put(b, 0);
    for (i = 0; i < 16; i++) {
        if (i == 0) {
            put_task(b, 0, 5, 700);
        } else if (i == 5) {
            put_task(b, 2, 0, 0);
        } else {
            put_number(b, 2, 0);
        }
    }
}

static void set_register(struct image *b, size_t slot_at, unsigned r, uint32_t value)
{
    set_number(b->bytes + slot_at + REGISTERS_AT + 4 * r, 4, value);
}

/* One message more, behind the others of the slot that stands there. Its record has less than 256 bytes before and after. */
static void put_mail(struct image *b, size_t slot_at, unsigned label, unsigned sender, uint32_t value)
{
    uint8_t *length_at = b->bytes + slot_at + 1;
    uint8_t *at = length_at + 1 + *length_at;
    memmove(at + 6, at, (size_t)(b->bytes + b->length - at));
    at[0] = (uint8_t)label;
    at[1] = (uint8_t)sender;
    set_number(at + 2, 4, value);
    *length_at = (uint8_t)(*length_at + 6);
    b->length += 6;
}

/* A task's record in version 2: its clearance behind the label. It has less than 256 bytes before and after. */
static void put_clearance(struct image *b, size_t slot_at, unsigned clearance)
{
    uint8_t *at = b->bytes + slot_at + CLEARANCE_AT;
    memmove(at + 1, at, (size_t)(b->bytes + b->length - at));
    *at = (uint8_t)clearance;
    b->bytes[slot_at + 1]++;
    b->length++;
}

/* An image with B's slots, from version 1 to 2: slot 0 gets the clearance, slot 5 has 15. */
static void to_version_2(struct image *b, unsigned clearance)
{
    b->bytes[0] = 2;
    put_clearance(b, SLOT_5_AT, 15);
    put_clearance(b, SLOT_0_AT, clearance);
}

/* ---- calls: the output is filled with a pattern first, and all of it is compared */

enum { PATTERN = 0xa5, OUT_LENGTH = RITHENNAW_IMAGE_MAX };

static uint8_t out[OUT_LENGTH];
static size_t length;
static uint64_t busy;
static uint8_t delivered;

static void fill(void)
{
    memset(out, PATTERN, sizeof out);
    length = 77;
    busy = 77;
    delivered = 77;
}

/* The output begins with `should` and holds the pattern behind it. */
static void expect_output(const char *call, const uint8_t *should, size_t should_length)
{
    size_t i;
    for (i = 0; i < OUT_LENGTH; i++) {
        unsigned byte = i < should_length ? should[i] : PATTERN;
        if (out[i] != byte) {
            expect(0, call);
            fprintf(stderr, "b.c: %s: byte %zu of the output is %u, not %u\n", call, i, (unsigned)out[i], byte);
            return;
        }
    }
    expect(1, call);
}

/* The call told this number, and wrote `should` and told its length; no byte and 0 where it is refused. */
static void expect_answer(const char *call, unsigned is, unsigned number, const struct image *should)
{
    static const struct image none;
    const struct image *answer = number == RITHENNAW_ACCEPTED ? should : &none;
    expect_number(is, number, call, "the number");
    expect_number(length, answer->length, call, "the length");
    expect_output(call, answer->bytes, answer->length);
}

static void rewrites(const char *call, const struct image *image, size_t room, unsigned number,
                     const struct image *should)
{
    fill();
    expect_answer(call, rithennaw_rewrite(image->bytes, image->length, out, room, &length), number, should);
}

static void turns(const char *call, const struct image *image, uint64_t count, size_t room, unsigned number,
                  const struct image *should, uint64_t should_busy)
{
    fill();
    expect_answer(call, rithennaw_turns(image->bytes, image->length, count, out, room, &length, &busy), number, should);
    expect_number(busy, should_busy, call, "the busy count");
}

/* The value of every post, with four bytes that differ. */
enum { FIGURE = 0x01020304 };

static void posts(const char *call, const struct image *image, uint32_t slot, uint32_t label, size_t room,
                  unsigned number, const struct image *should, unsigned should_delivered)
{
    unsigned is;
    fill();
    is = rithennaw_post(image->bytes, image->length, slot, label, FIGURE, out, room, &length, &delivered);
    expect_answer(call, is, number, should);
    expect_number(delivered, should_delivered, call, "the delivery");
}

static void views(const char *call, const struct image *image, uint32_t observer, size_t room, unsigned number,
                  const struct image *should)
{
    fill();
    expect_answer(call, rithennaw_view(image->bytes, image->length, observer, out, room, &length), number, should);
}

/* The sheet is `should`, without the 0 byte behind it. */
static void sheets(const char *call, const struct image *image, uint32_t observer, size_t room, unsigned number,
                   const char *should)
{
    struct image text;
    text.length = 0;
    put_words(&text, should);
    fill();
    expect_answer(call, rithennaw_sheet(image->bytes, image->length, observer, out, room, &length), number, &text);
}

static void assembles(const char *call, const struct image *text, size_t room, unsigned number,
                      const struct image *should)
{
    fill();
    expect_answer(call, rithennaw_assemble(text->bytes, text->length, out, room, &length), number, should);
}

static void disassembles(const char *call, const struct image *code, size_t room, unsigned number,
                         const struct image *should)
{
    fill();
    expect_answer(call, rithennaw_disassemble(code->bytes, code->length, out, room, &length), number, should);
}

static void checks_as(const char *call, const struct image *image, unsigned number)
{
    expect_number(rithennaw_check(image->bytes, image->length), number, call, "the number");
}

static void record(const char *call, const struct image *image, uint32_t slot, size_t should_start,
                   size_t should_length)
{
    size_t start = 77;
    length = 77;
    rithennaw_record(image->bytes, image->length, slot, &start, &length);
    expect_number(start, should_start, call, "the start");
    expect_number(length, should_length, call, "the length");
}

/* ---- the images of the examples; `cut` is B without its last byte, `label_16` and `sender_17` have such a message */

static struct image b, p2, p3, ended, p5, p5_after, p5_for_0, cut, label_16, sender_17, empty;

static void make_images(void)
{
    make_b(&b);
    expect_number(b.length, B_LENGTH, "B", "the length");
    cut = b;
    cut.length--;
    label_16 = b;
    put_mail(&label_16, SLOT_5_AT, 16, 0, 700);
    sender_17 = b;
    put_mail(&sender_17, SLOT_5_AT, 0, 17, 700);

    /* P2: after 1 turn slot 0 is at place 1, and slot 5 has the message. */
    p2 = b;
    p2.bytes[TURN_SLOT_AT] = 1;
    p2.bytes[SLOT_0_AT + PLACE_AT + 1] = 1;
    put_mail(&p2, SLOT_5_AT, 0, 0, 700);

    /* P3: after 6 turns register 3 of slot 5 is 700, register 4 is 0, it is at place 3 and has no mail. */
    p3 = b;
    p3.bytes[TURN_SLOT_AT] = 6;
    p3.bytes[SLOT_0_AT + PLACE_AT + 1] = 1;
    p3.bytes[SLOT_5_AT + PLACE_AT + 1] = 3;
    set_register(&p3, SLOT_5_AT, 3, 700);

    /* After 1,000,000 turns, 62,500 for each slot, both tasks have ended; 4 turns were busy. */
    ended = p3;
    ended.bytes[TURN_SLOT_AT] = 0;
    ended.bytes[SLOT_0_AT + KIND_AT] = 2;
    ended.bytes[SLOT_5_AT + KIND_AT] = 2;

    /* P5: B with the send's label 2. After 6 turns slot 5 is at place 2 with one message; the view for 0 has none. */
    p5 = b;
    p5.bytes[SEND_LABEL_AT] = 2;
    p5_for_0 = p5;
    p5_for_0.bytes[TURN_SLOT_AT] = 6;
    p5_for_0.bytes[SLOT_0_AT + PLACE_AT + 1] = 1;
    p5_after = p5_for_0;
    put_mail(&p5_after, SLOT_5_AT, 2, 0, 700);
}

/* ---- the images of posts to B, of which slots 0 and 5 are live */

static struct image posted, posted_to_0, posted_2, posted_again, taken, full, full_posted;

static void make_posted(void)
{
    unsigned i;

    /* To slot 5 with label 0, to slot 0, with label 2, which doesn't flow to the task's, and behind the message of P2. */
    posted = b;
    put_mail(&posted, SLOT_5_AT, 0, RITHENNAW_HOST, FIGURE);
    posted_to_0 = b;
    put_mail(&posted_to_0, SLOT_0_AT, 0, RITHENNAW_HOST, FIGURE);
    posted_2 = b;
    put_mail(&posted_2, SLOT_5_AT, 2, RITHENNAW_HOST, FIGURE);
    posted_again = p2;
    put_mail(&posted_again, SLOT_5_AT, 0, RITHENNAW_HOST, FIGURE);

    /* After 6 turns slot 5 has taken it ahead of slot 0's message: the figure in register 3, the host in register 4. */
    taken = p3;
    set_register(&taken, SLOT_5_AT, 3, FIGURE);
    set_register(&taken, SLOT_5_AT, 4, RITHENNAW_HOST);
    put_mail(&taken, SLOT_5_AT, 0, 0, 700);

    /* Four messages of label 2 wait; one of label 3 has room. */
    full = b;
    for (i = 0; i < 4; i++) {
        put_mail(&full, SLOT_5_AT, 2, i, 700 + i);
    }
    full_posted = full;
    put_mail(&full_posted, SLOT_5_AT, 3, RITHENNAW_HOST, FIGURE);
}

/* ---- images of version 2: B and P3 with clearances 15; B whose first instruction raises by 3, under clearances 7 and 5 */

static struct image b_2, p3_2, raise, raised, outside, stopped_6;

static void make_cleared(void)
{
    b_2 = b;
    to_version_2(&b_2, 15);
    p3_2 = p3;
    to_version_2(&p3_2, 15);

    /* Within clearance 7 the label becomes 3, and slot 0 is at place 1. */
    raise = b;
    set_number(raise.bytes + 3, 4, 0x07030000);
    raised = raise;
    raised.bytes[TURN_SLOT_AT] = 1;
    raised.bytes[SLOT_0_AT + LABEL_AT] = 3;
    raised.bytes[SLOT_0_AT + PLACE_AT + 1] = 1;
    to_version_2(&raised, 7);

    /* Label 3 isn't within clearance 5: the kind is 6, and all else as it was. */
    outside = raise;
    to_version_2(&outside, 5);
    stopped_6 = outside;
    stopped_6.bytes[TURN_SLOT_AT] = 1;
    stopped_6.bytes[SLOT_0_AT + KIND_AT] = 6;
    to_version_2(&raise, 7);
}

/* ---- programs and their texts: of B, of every word in the table, the longest, and one of a line more */

static struct image b_text, b_code, table_text, table_code, longest_text, longest_code, longer_text, longer_code;

/* One line more, and its four bytes. */
static void put_line(struct image *text, struct image *code, const char *line, uint32_t bytes)
{
    put_words(text, line);
    put_number(code, 4, bytes);
}

static void make_programs(void)
{
    unsigned i;
    put_words(&b_text, "send 1 0 2\nend 0 0 0\ntake 3 4 0\nend 0 0 0\n");
    for (i = 0; i < sizeof program; i++) {
        put(&b_code, program[i]);
    }

    /* The operands are as high as they may be, or differ. */
    put_line(&table_text, &table_code, "end 0 0 0\n", 0x00000000);
    put_line(&table_text, &table_code, "set 7 255 255\n", 0x0107ffff);
    put_line(&table_text, &table_code, "copy 1 2 0\n", 0x02010200);
    put_line(&table_text, &table_code, "add 7 7 7\n", 0x03070707);
    put_line(&table_text, &table_code, "subtract 3 4 5\n", 0x04030405);
    put_line(&table_text, &table_code, "go 13 0 0\n", 0x050d0000);
    put_line(&table_text, &table_code, "zero 6 13 0\n", 0x06060d00);
    put_line(&table_text, &table_code, "raise 15 0 0\n", 0x070f0000);
    put_line(&table_text, &table_code, "send 1 15 2\n", 0x08010f02);
    put_line(&table_text, &table_code, "take 3 4 0\n", 0x09030400);
    put_line(&table_text, &table_code, "poll 5 6 13\n", 0x0a05060d);
    put_line(&table_text, &table_code, "sandbox 7 13 15\n", 0x0b070d0f);
    put_line(&table_text, &table_code, "self 1 2 0\n", 0x0c010200);
    put_line(&table_text, &table_code, "count 7 0 0\n", 0x0d070000);

    for (i = 0; i < 256; i++) {
        put_line(&longest_text, &longest_code, "sandbox 7 255 15\n", 0x0b07ff0f);
    }
    longer_text = longest_text;
    longer_code = longest_code;
    put_line(&longer_text, &longer_code, "end 0 0 0\n", 0x00000000);
}

/* ---- each function: accepted calls, then the refusals in the order of their numbers */

/* The check of an image with the byte at `at` changed. */
static void checks_with(const char *call, const struct image *image, size_t at, unsigned byte, unsigned number)
{
    struct image changed = *image;
    changed.bytes[at] = (uint8_t)byte;
    checks_as(call, &changed, number);
}

/* Of B. */
static void checks_changed(const char *call, size_t at, unsigned byte, unsigned number)
{
    checks_with(call, &b, at, byte, number);
}

/* Of B in version 2. */
static void checks_cleared(const char *call, size_t at, unsigned byte, unsigned number)
{
    checks_with(call, &b_2, at, byte, number);
}

static void try_check_2(void)
{
    checks_as("check of B in version 2", &b_2, RITHENNAW_ACCEPTED);
    checks_cleared("check of B in version 2 as version 1", 0, 1, RITHENNAW_REFUSED_RECORD_LENGTH);
    checks_cleared("check of a record of 37 bytes in version 2", SLOT_0_AT + 1, 37, RITHENNAW_REFUSED_RECORD_LENGTH);
    checks_cleared("check of kind 6 in version 2", SLOT_0_AT + KIND_AT, 6, RITHENNAW_ACCEPTED);
    checks_cleared("check of kind 7 in version 2", SLOT_0_AT + KIND_AT, 7, RITHENNAW_REFUSED_TASK_FIELD);
    checks_cleared("check of clearance 16", SLOT_0_AT + CLEARANCE_AT, 16, RITHENNAW_REFUSED_TASK_FIELD);
    checks_cleared("check of label 0 with clearance 0", SLOT_0_AT + CLEARANCE_AT, 0, RITHENNAW_ACCEPTED);
    checks_with("check of label 4 with clearance 5", &outside, SLOT_0_AT + LABEL_AT, 4, RITHENNAW_ACCEPTED);
    checks_with("check of label 3 with clearance 5", &outside, SLOT_0_AT + LABEL_AT, 3, RITHENNAW_REFUSED_TASK_FIELD);
}

static void try_check(void)
{
    struct image longer = b;
    put(&longer, 0);
    checks_as("check of B", &b, RITHENNAW_ACCEPTED);
    checks_as("check of P2", &p2, RITHENNAW_ACCEPTED);
    checks_as("check of B cut by a byte", &cut, RITHENNAW_REFUSED_SHORT);
    checks_as("check of no bytes", &empty, RITHENNAW_REFUSED_SHORT);
    checks_changed("check of version 0", 0, 0, RITHENNAW_REFUSED_VERSION);
    checks_changed("check of version 3", 0, 3, RITHENNAW_REFUSED_VERSION);
    checks_changed("check of B as version 2", 0, 2, RITHENNAW_REFUSED_RECORD_LENGTH);
    checks_changed("check of a program of 17 bytes", 2, 17, RITHENNAW_REFUSED_PROGRAM_LENGTH);
    checks_changed("check of an instruction 255", 3, 255, RITHENNAW_REFUSED_INSTRUCTION);
    checks_changed("check of turn slot 16", TURN_SLOT_AT, 16, RITHENNAW_REFUSED_TURN_SLOT);
    checks_changed("check of a record of 38 bytes", SLOT_0_AT + 1, 38, RITHENNAW_REFUSED_RECORD_LENGTH);
    checks_changed("check of kind 6", SLOT_0_AT + KIND_AT, 6, RITHENNAW_REFUSED_TASK_FIELD);
    checks_as("check of a message of label 16", &label_16, RITHENNAW_REFUSED_MAIL);
    checks_as("check of a message of sender 16", &posted, RITHENNAW_ACCEPTED);
    checks_as("check of a message of sender 17", &sender_17, RITHENNAW_REFUSED_MAIL);
    checks_as("check of B and a byte", &longer, RITHENNAW_REFUSED_TAIL);
    checks_changed("check of slot 0 with spare 5", SLOT_0_AT + SPARE_AT, 5, RITHENNAW_REFUSED_ESTATE);
}

static void try_record(void)
{
    record("record of slot 0 of B", &b, 0, SLOT_0_AT + 2, 37);
    record("record of slot 5 of B", &b, 5, SLOT_5_AT + 2, 37);
    record("record of slot 5 of P2", &p2, 5, SLOT_5_AT + 2, 43);
    record("record of slot 5 of B in version 2", &b_2, 5, SLOT_5_AT + 1 + 2, 38);
    record("record of slot 1 of B, which is unused", &b, 1, 0, 0);
    record("record of slot 16 of B", &b, 16, 0, 0);
    record("record of slot 2^32 - 11 of B", &b, 0xfffffff5u, 0, 0);
    record("record of slot 5 of B cut by a byte", &cut, 5, 0, 0);
    record("record of slot 0 of no bytes", &empty, 0, 0, 0);
}

static void try_rewrite(void)
{
    rewrites("rewrite of B", &b, OUT_LENGTH, RITHENNAW_ACCEPTED, &b);
    rewrites("rewrite of B into just enough", &b, b.length, RITHENNAW_ACCEPTED, &b);
    rewrites("rewrite of P2", &p2, OUT_LENGTH, RITHENNAW_ACCEPTED, &p2);
    rewrites("rewrite of B in version 2", &b_2, OUT_LENGTH, RITHENNAW_ACCEPTED, &b_2);
    rewrites("rewrite of kind 6", &stopped_6, OUT_LENGTH, RITHENNAW_ACCEPTED, &stopped_6);
    rewrites("rewrite of B cut by a byte", &cut, OUT_LENGTH, RITHENNAW_REFUSED_SHORT, NULL);
    rewrites("rewrite of no bytes", &empty, 0, RITHENNAW_REFUSED_SHORT, NULL);
    rewrites("rewrite of B into a byte too few", &b, b.length - 1, RITHENNAW_REFUSED_OUTPUT, NULL);
}

static void try_turns(void)
{
    turns("B after 0 turns", &b, 0, OUT_LENGTH, RITHENNAW_ACCEPTED, &b, 0);
    turns("B after 1 turn (P2)", &b, 1, OUT_LENGTH, RITHENNAW_ACCEPTED, &p2, 1);
    turns("B after 1 turn into just enough", &b, 1, p2.length, RITHENNAW_ACCEPTED, &p2, 1);
    turns("B after 6 turns (P3)", &b, 6, OUT_LENGTH, RITHENNAW_ACCEPTED, &p3, 2);
    turns("B after 1,000,000 turns", &b, RITHENNAW_TURNS_MAX, OUT_LENGTH, RITHENNAW_ACCEPTED, &ended, 4);
    turns("P2 after 5 turns more", &p2, 5, OUT_LENGTH, RITHENNAW_ACCEPTED, &p3, 1);
    turns("P5 after 6 turns", &p5, 6, OUT_LENGTH, RITHENNAW_ACCEPTED, &p5_after, 2);
    turns("B with a post after 6 turns", &posted, 6, OUT_LENGTH, RITHENNAW_ACCEPTED, &taken, 2);
    turns("B in version 2 after 6 turns", &b_2, 6, OUT_LENGTH, RITHENNAW_ACCEPTED, &p3_2, 2);
    turns("a raise within the clearance", &raise, 1, OUT_LENGTH, RITHENNAW_ACCEPTED, &raised, 1);
    turns("a raise outside the clearance", &outside, 1, OUT_LENGTH, RITHENNAW_ACCEPTED, &stopped_6, 1);
    turns("1,000,001 turns", &b, RITHENNAW_TURNS_MAX + 1, OUT_LENGTH, RITHENNAW_REFUSED_TURN_LIMIT, NULL, 0);
    turns("2^32 turns", &b, (uint64_t)1 << 32, OUT_LENGTH, RITHENNAW_REFUSED_TURN_LIMIT, NULL, 0);
    turns("1,000,001 turns of no bytes", &empty, RITHENNAW_TURNS_MAX + 1, 0, RITHENNAW_REFUSED_TURN_LIMIT, NULL, 0);
    turns("turns of B cut by a byte", &cut, 1, OUT_LENGTH, RITHENNAW_REFUSED_SHORT, NULL, 0);
    turns("turns of no bytes", &empty, 1, 0, RITHENNAW_REFUSED_SHORT, NULL, 0);
    turns("B after 1 turn into a byte too few", &b, 1, p2.length - 1, RITHENNAW_REFUSED_OUTPUT, NULL, 0);
}

/* A post to a task that has stopped, whatever its kind, is dropped. */
static void posts_to_stopped(void)
{
    struct image stopped = b;
    uint8_t kind;
    for (kind = 2; kind <= 5; kind++) {
        stopped.bytes[SLOT_5_AT + KIND_AT] = kind;
        posts("post to a stopped task", &stopped, 5, 0, OUT_LENGTH, RITHENNAW_ACCEPTED, &stopped, 0);
    }
    posts("post to a task of kind 6", &stopped_6, 0, 0, OUT_LENGTH, RITHENNAW_ACCEPTED, &stopped_6, 0);
}

static void try_post(void)
{
    posts("post", &b, 5, 0, OUT_LENGTH, RITHENNAW_ACCEPTED, &posted, 1);
    posts("post into just enough", &b, 5, 0, posted.length, RITHENNAW_ACCEPTED, &posted, 1);
    posts("post to slot 0", &b, 0, 0, OUT_LENGTH, RITHENNAW_ACCEPTED, &posted_to_0, 1);
    posts("post behind a message", &p2, 5, 0, OUT_LENGTH, RITHENNAW_ACCEPTED, &posted_again, 1);
    posts("post with a label that the task has not", &b, 5, 2, OUT_LENGTH, RITHENNAW_ACCEPTED, &posted_2, 1);
    posts("post with label 3 behind four of label 2", &full, 5, 3, OUT_LENGTH, RITHENNAW_ACCEPTED, &full_posted, 1);
    posts("post with label 2 behind four of it", &full, 5, 2, OUT_LENGTH, RITHENNAW_ACCEPTED, &full, 0);
    posts("post to an unused slot", &b, 1, 0, OUT_LENGTH, RITHENNAW_ACCEPTED, &b, 0);
    posts("post to an unused slot into just enough", &b, 1, 0, b.length, RITHENNAW_ACCEPTED, &b, 0);
    posts_to_stopped();
    posts("post to slot 16", &b, 16, 0, OUT_LENGTH, RITHENNAW_REFUSED_POST_SLOT, NULL, 0);
    posts("post to slot 256 + 5", &b, 256 + 5, 0, OUT_LENGTH, RITHENNAW_REFUSED_POST_SLOT, NULL, 0);
    posts("post to slot 16 with label 16", &b, 16, 16, OUT_LENGTH, RITHENNAW_REFUSED_POST_SLOT, NULL, 0);
    posts("post to slot 16 of no bytes", &empty, 16, 0, 0, RITHENNAW_REFUSED_POST_SLOT, NULL, 0);
    posts("post with label 16", &b, 5, 16, OUT_LENGTH, RITHENNAW_REFUSED_POST_LABEL, NULL, 0);
    posts("post with label 256", &b, 5, 256, OUT_LENGTH, RITHENNAW_REFUSED_POST_LABEL, NULL, 0);
    posts("post with label 16 to no bytes", &empty, 5, 16, 0, RITHENNAW_REFUSED_POST_LABEL, NULL, 0);
    posts("post to B cut by a byte", &cut, 5, 0, OUT_LENGTH, RITHENNAW_REFUSED_SHORT, NULL, 0);
    posts("post to no bytes", &empty, 5, 0, 0, RITHENNAW_REFUSED_SHORT, NULL, 0);
    posts("post into a byte too few", &b, 5, 0, posted.length - 1, RITHENNAW_REFUSED_OUTPUT, NULL, 0);
    posts("post to an unused slot into a byte too few", &b, 1, 0, b.length - 1, RITHENNAW_REFUSED_OUTPUT, NULL, 0);
}

static void try_view(void)
{
    views("view of P5 for 0", &p5_after, 0, OUT_LENGTH, RITHENNAW_ACCEPTED, &p5_for_0);
    views("view of P5 for 0 into just enough", &p5_after, 0, p5_for_0.length, RITHENNAW_ACCEPTED, &p5_for_0);
    views("view of P5 for 2", &p5_after, 2, OUT_LENGTH, RITHENNAW_ACCEPTED, &p5_after);
    views("view of P5 for 15", &p5_after, 15, OUT_LENGTH, RITHENNAW_ACCEPTED, &p5_after);
    views("view of a post of label 2 for 0", &posted_2, 0, OUT_LENGTH, RITHENNAW_ACCEPTED, &b);
    views("view of a post of label 2 for 2", &posted_2, 2, OUT_LENGTH, RITHENNAW_ACCEPTED, &posted_2);
    views("view of kind 6 for 0", &stopped_6, 0, OUT_LENGTH, RITHENNAW_ACCEPTED, &stopped_6);
    views("view for 16", &b, 16, OUT_LENGTH, RITHENNAW_REFUSED_OBSERVER, NULL);
    views("view for 256", &b, 256, OUT_LENGTH, RITHENNAW_REFUSED_OBSERVER, NULL);
    views("view for 16 of no bytes", &empty, 16, 0, RITHENNAW_REFUSED_OBSERVER, NULL);
    views("view of B cut by a byte", &cut, 0, OUT_LENGTH, RITHENNAW_REFUSED_SHORT, NULL);
    views("view of no bytes", &empty, 0, 0, RITHENNAW_REFUSED_SHORT, NULL);
    views("view of P5 for 0 into a byte too few", &p5_after, 0, p5_for_0.length - 1, RITHENNAW_REFUSED_OUTPUT, NULL);
}

static void try_sheet(void)
{
    static const char of_p2[] = "slot kind label spare pc mail\n0 1 0 0 1 0\n5 1 0 0 2 1\n";
    static const char of_p5_for_0[] = "slot kind label spare pc mail\n0 1 0 0 1 0\n5 1 0 0 2 0\n";
    static const char of_stopped_6[] = "slot kind label spare pc mail\n0 6 0 0 0 0\n5 1 0 0 2 0\n";
    const size_t enough = sizeof of_p2 - 1;
    sheets("sheet of P2 for 0", &p2, 0, OUT_LENGTH, RITHENNAW_ACCEPTED, of_p2);
    sheets("sheet of P2 for 0 into just enough", &p2, 0, enough, RITHENNAW_ACCEPTED, of_p2);
    sheets("sheet of P5 for 0", &p5_after, 0, RITHENNAW_SHEET_MAX, RITHENNAW_ACCEPTED, of_p5_for_0);
    sheets("sheet of P5 for 2", &p5_after, 2, RITHENNAW_SHEET_MAX, RITHENNAW_ACCEPTED, of_p2);
    sheets("sheet of kind 6 for 0", &stopped_6, 0, RITHENNAW_SHEET_MAX, RITHENNAW_ACCEPTED, of_stopped_6);
    sheets("sheet for 16", &p2, 16, OUT_LENGTH, RITHENNAW_REFUSED_OBSERVER, "");
    sheets("sheet for 256", &p2, 256, OUT_LENGTH, RITHENNAW_REFUSED_OBSERVER, "");
    sheets("sheet for 16 of no bytes", &empty, 16, 0, RITHENNAW_REFUSED_OBSERVER, "");
    sheets("sheet of B cut by a byte", &cut, 0, OUT_LENGTH, RITHENNAW_REFUSED_SHORT, "");
    sheets("sheet of no bytes", &empty, 0, 0, RITHENNAW_REFUSED_SHORT, "");
    sheets("sheet of P2 for 0 into a byte too few", &p2, 0, enough - 1, RITHENNAW_REFUSED_OUTPUT, "");
}

/* The text is refused with that number, whether or not there is room. */
static void refuses_text(const struct image *text, unsigned number)
{
    char call[100];
    const int shown = text->length < 60 ? (int)text->length : 60;
    snprintf(call, sizeof call, "assemble of \"%.*s\"", shown, (const char *)text->bytes);
    assembles(call, text, OUT_LENGTH, number, NULL);
    assembles(call, text, 0, number, NULL);
}

static void refuses_words(const char *words, unsigned number)
{
    struct image text;
    text.length = 0;
    put_words(&text, words);
    refuses_text(&text, number);
}

/* The text with one byte more behind it. */
static void refuses_with(const struct image *text, unsigned byte, unsigned number)
{
    struct image with = *text;
    put(&with, byte);
    refuses_text(&with, number);
}

/* No list of lines, for whatever is wrong in it; also where 5 or 6 would be told of its lines. */
static void try_no_lists(void)
{
    static const char *const no_lists[] = {
        "end 0 0 0", "end 0 0 0\nend 0 0 0", "\n", "end 0 0 0\n\n", "\nend 0 0 0\n", "end 0 0 0\r\n", "end 0 0 0\r",
        "halt 0 0 0\n", "End 0 0 0\n", "en 0 0 0\n", "ends 0 0 0\n", " 0 0 0\n", "0 0 0\n", "end\n", "end \n",
        "end 0 0\n", "end 0 0 \n", "end 0 0 0 0\n", "end 0 0 0 \n", " end 0 0 0\n", "end  0 0 0\n", "end 0  0 0\n",
        "end\t0 0 0\n", "end 0,0,0\n", "end000\n", "set 1 00 0\n", "set 1 01 0\n", "set 01 1 0\n", "set 1 0 010\n",
        "set 1 -1 0\n", "set 1 +1 0\n", "set 1 0x1 0\n", "set 1 x 0\n", "set 1 1e0 0\n", "set 1 0 0 # one\n", "# one\n",
        "here:\nend 0 0 0\n", "end 0 0 0\xa0\n", "\xef\xbb\xbf" "end 0 0 0\n", "set 1 \xb2 0\n",
        "set 8 0 0\nend 0 0 0", "set 1 0 256\nhalt 0 0 0\n", "go 9 0 0\n\n"
    };
    size_t i;
    for (i = 0; i < sizeof no_lists / sizeof no_lists[0]; i++) {
        refuses_words(no_lists[i], RITHENNAW_REFUSED_TEXT);
    }
    refuses_with(&b_text, '\0', RITHENNAW_REFUSED_TEXT);
    refuses_with(&longest_text, '\n', RITHENNAW_REFUSED_TEXT);
    refuses_with(&longer_text, ' ', RITHENNAW_REFUSED_TEXT);
}

/* Operands outside the table, in a program of one or two instructions. */
static void try_operands(void)
{
    static const char *const outside[] = {
        "end 1 0 0\n", "end 0 1 0\n", "end 0 0 1\n", "set 8 0 0\n", "set 0 256 0\n", "set 0 0 256\n", "copy 0 8 0\n",
        "copy 0 0 1\n", "add 0 0 8\n", "subtract 8 0 0\n", "go 1 0 0\n", "go 2 0 0\nend 0 0 0\n", "zero 0 1 0\n",
        "raise 16 0 0\n", "send 0 16 0\n", "take 0 0 1\n", "poll 0 0 1\n", "sandbox 0 0 0\n", "sandbox 0 0 16\n",
        "sandbox 0 1 1\n", "self 0 8 0\n", "set 257 0 0\n", "set 1 65536 0\n", "set 1 4294967296 0\n",
        "set 1 0 18446744073709551616\n", "set 1 0 340282366920938463463374607431768211456\n", "end 0 0 256\n"
    };
    struct image digits = {{0}, 0};
    size_t i;
    for (i = 0; i < sizeof outside / sizeof outside[0]; i++) {
        refuses_words(outside[i], RITHENNAW_REFUSED_INSTRUCTION);
    }
    put_words(&digits, "set 1 0 1");
    for (i = 0; i < 7000; i++) {
        put(&digits, '0');
    }
    put(&digits, '\n');
    refuses_text(&digits, RITHENNAW_REFUSED_INSTRUCTION);
}

static void try_assemble(void)
{
    struct image wrong = longer_text;
    put_words(&wrong, "set 8 0 0\n");
    assembles("assemble of B's text", &b_text, OUT_LENGTH, RITHENNAW_ACCEPTED, &b_code);
    assembles("assemble of B's text into just enough", &b_text, b_code.length, RITHENNAW_ACCEPTED, &b_code);
    assembles("assemble of every word", &table_text, OUT_LENGTH, RITHENNAW_ACCEPTED, &table_code);
    assembles("assemble of 256 lines", &longest_text, RITHENNAW_PROGRAM_MAX, RITHENNAW_ACCEPTED, &longest_code);
    try_no_lists();
    refuses_text(&empty, RITHENNAW_REFUSED_PROGRAM_LENGTH);
    refuses_text(&longer_text, RITHENNAW_REFUSED_PROGRAM_LENGTH);
    refuses_text(&wrong, RITHENNAW_REFUSED_PROGRAM_LENGTH);
    try_operands();
    assembles("assemble into a byte too few", &b_text, b_code.length - 1, RITHENNAW_REFUSED_OUTPUT, NULL);
    assembles("assemble of 256 lines into a byte too few", &longest_text, RITHENNAW_PROGRAM_MAX - 1,
              RITHENNAW_REFUSED_OUTPUT, NULL);
    assembles("assemble into nothing", &b_text, 0, RITHENNAW_REFUSED_OUTPUT, NULL);
}

/* The program of B with the byte at `at` changed, and with a length of its own, is refused with that number. */
static void refuses_program(const char *call, size_t at, unsigned byte, size_t program_length, unsigned number)
{
    struct image changed = longer_code;
    memcpy(changed.bytes, b_code.bytes, b_code.length);
    changed.bytes[at] = (uint8_t)byte;
    changed.length = program_length;
    disassembles(call, &changed, OUT_LENGTH, number, NULL);
    disassembles(call, &changed, 0, number, NULL);
}

/* The listing of the program that stands in B, where the header says. */
static void lists_program_of_b(void)
{
    const size_t program_length = 256u * b.bytes[1] + b.bytes[2];
    fill();
    expect_answer("listing of the program in B",
                  rithennaw_disassemble(b.bytes + 3, program_length, out, OUT_LENGTH, &length), RITHENNAW_ACCEPTED, &b_text);
}

static void try_disassemble(void)
{
    lists_program_of_b();
    disassembles("listing of B", &b_code, OUT_LENGTH, RITHENNAW_ACCEPTED, &b_text);
    disassembles("listing of B into just enough", &b_code, b_text.length, RITHENNAW_ACCEPTED, &b_text);
    disassembles("listing of every word", &table_code, OUT_LENGTH, RITHENNAW_ACCEPTED, &table_text);
    disassembles("listing of 256 instructions", &longest_code, RITHENNAW_LISTING_MAX, RITHENNAW_ACCEPTED, &longest_text);
    refuses_program("listing of no bytes", 0, 8, 0, RITHENNAW_REFUSED_PROGRAM_LENGTH);
    refuses_program("listing of 3 bytes", 0, 8, 3, RITHENNAW_REFUSED_PROGRAM_LENGTH);
    refuses_program("listing of 17 bytes, the first 255", 0, 255, 17, RITHENNAW_REFUSED_PROGRAM_LENGTH);
    refuses_program("listing of 1,028 bytes", 0, 8, 1028, RITHENNAW_REFUSED_PROGRAM_LENGTH);
    refuses_program("listing of an instruction 255", 0, 255, 16, RITHENNAW_REFUSED_INSTRUCTION);
    refuses_program("listing of a last instruction 255", 12, 255, 16, RITHENNAW_REFUSED_INSTRUCTION);
    refuses_program("listing of a register 8", 1, 8, 16, RITHENNAW_REFUSED_INSTRUCTION);
    refuses_program("listing of a label 16", 2, 16, 16, RITHENNAW_REFUSED_INSTRUCTION);
    refuses_program("listing of an end 0 0 1", 15, 1, 16, RITHENNAW_REFUSED_INSTRUCTION);
    disassembles("listing of B into a byte too few", &b_code, b_text.length - 1, RITHENNAW_REFUSED_OUTPUT, NULL);
    disassembles("listing of 256 instructions into a byte too few", &longest_code, RITHENNAW_LISTING_MAX - 1,
                 RITHENNAW_REFUSED_OUTPUT, NULL);
    disassembles("listing of B into nothing", &b_code, 0, RITHENNAW_REFUSED_OUTPUT, NULL);
}

/* ---- what the header has beside the archive's functions */

static int has_text(uint8_t number, const char *text)
{
    return strcmp(rithennaw_refusal_text(number), text) == 0;
}

/* The sentence of every number that no call returns. */
static const char of_no_call[] = "No call of this version returns this number.";

/* The number's text is a sentence, and another one than those of the numbers below it and of no call. */
static int has_own_sentence(uint8_t number)
{
    const char *text = rithennaw_refusal_text(number);
    uint8_t below;
    for (below = 0; below < number; below++) {
        if (has_text(below, text)) {
            return 0;
        }
    }
    return !has_text(number, of_no_call) && text[0] >= 'A' && text[0] <= 'Z' && text[strlen(text) - 1] == '.';
}

static void try_texts(void)
{
    uint8_t number;
    for (number = RITHENNAW_ACCEPTED; number <= RITHENNAW_REFUSED_TEXT; number++) {
        expect(has_own_sentence(number), rithennaw_refusal_text(number));
    }
    /* far above the last number, so that a new one moves neither */
    expect(has_text(200, of_no_call), "the sentence of 200");
    expect(has_text(255, of_no_call), "the sentence of 255");
}

/* LIBRARY_VERSION is what the file VERSION has. */
static void try_version(void)
{
    expect(strcmp(RITHENNAW_VERSION_STRING, LIBRARY_VERSION) == 0, "the version is not that of the file VERSION");
}

int main(void)
{
    make_images();
    make_posted();
    make_cleared();
    make_programs();
    try_check();
    try_check_2();
    try_record();
    try_rewrite();
    try_turns();
    try_post();
    try_view();
    try_sheet();
    try_assemble();
    try_disassemble();
    try_texts();
    try_version();
    printf("b.c: %u checks, %u failed\n", checks, faults);
    return faults == 0 ? 0 : 1;
}
