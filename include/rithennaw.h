/*
 * rithennaw.h: the C interface of the monitor. ISO C99; link librithennaw.a, which `make lib` builds.
 *
 * Each call takes an image, the bytes of all tasks; but `rithennaw_assemble` takes text, and `rithennaw_disassemble` a
 * program. The bytes may be any: a call refuses what it cannot take, so the caller checks nothing beforehand. The layout of
 * an image, the meaning of its tasks and the text of a program are the scope document's (01), with its change requests U1,
 * posts, U2, programs typed by people, U4, how much is waiting: the instruction count, from version 0.4 on, U5, a ceiling
 * for each task: images of version 2, from 0.5 on, and U6, working from a view.
 *
 * Image versions. The first byte of an image is its version, 1 or 2. In version 2 a task has one byte more, behind its label:
 * its clearance, a label that contains its own. A raise that would leave the clearance stops the task with kind 6, which
 * version 1 does not have; a child has its parent's clearance. Version 1 is read as clearance 15. Each call
 * that takes an image takes both, and an image that it writes has the version of the one that it read.
 *
 * Numbers. All calls but `rithennaw_record` return 0 (RITHENNAW_ACCEPTED), or the number of the first rule that is broken.
 * The order for an image: 1, 2, or 14 and then 15, by the call's own arguments; then the image from front to back; then 11,
 * 12, 13. For a text: 16, over all of it, then 5, 6, 13. For a program: 5, 6, 13.
 * A refused call writes no byte of the output, and sets *length, *busy and *delivered to 0, where it has them. An accepted
 * one writes *length bytes at the front of the output and leaves the bytes behind them as they were.
 *
 * Pointers. All must be valid for the call: `image`, `text` and `program` for reading image_len, text_len and program_len
 * bytes that have been set, `out` for writing out_len bytes, `start`, `length` and `busy` for writing one number at its
 * alignment, `delivered` for writing one byte at any address. None may be null, also where the length beside it is 0;
 * nothing is read or written through it then. What stands in the output and in the numbers beforehand does not matter.
 * What a call reads, the output and the numbers pointed to must not overlap, one with another.
 * Where RITHENNAW_DEBUG is defined ahead of this header, each call first asserts, by assert.h, that no pointer is null, that
 * the numbers are aligned and that nothing overlaps; where NDEBUG is defined too, it asserts nothing. So RITHENNAW_DEBUG
 * belongs into builds without NDEBUG, and on the compiler's command line: behind an earlier include of this header it comes
 * too late. It is an aid to find such faults and no proof that there are none: whether memory is valid, and the bytes
 * that a call reads are set, cannot be seen at run time.
 *
 * Threads and memory. There are no globals, nothing is allocated and nothing is kept between calls. Any number of threads
 * may call at a time, also on one image, text or program, as long as no thread writes what another call is lent, or reads
 * what it may write. Every call returns: none waits, and none fails but by its number. A call takes less than
 * RITHENNAW_STACK bytes of the caller's stack, what the loader takes to bind memset and memcpy at a first call included.
 * That is measured on x86-64 and not proved; `make link-test` prints the figure of each call and fails where one is not
 * less. Of the C library the archive uses memset and memcpy at most.
 */
#ifndef RITHENNAW_H
#define RITHENNAW_H

#include <stddef.h>
#include <stdint.h>
#ifdef RITHENNAW_DEBUG
#include <assert.h>
#endif

#ifdef __cplusplus
extern "C" {
#endif

/* The version of the library: its three numbers, and text with points between them. An image's version is its first byte. */
#define RITHENNAW_VERSION_MAJOR 0
#define RITHENNAW_VERSION_MINOR 5
#define RITHENNAW_VERSION_PATCH 0
#define RITHENNAW_VERSION_STRING \
    RITHENNAW_TEXT(RITHENNAW_VERSION_MAJOR) "." RITHENNAW_TEXT(RITHENNAW_VERSION_MINOR) "." \
    RITHENNAW_TEXT(RITHENNAW_VERSION_PATCH)

/* What a macro stands for, as text. It takes two steps: # by itself would give the macro's name. */
#define RITHENNAW_TEXT(macro) RITHENNAW_TEXT_OF(macro)
#define RITHENNAW_TEXT_OF(words) #words

/* The shortest and the longest image. An output of RITHENNAW_IMAGE_MAX bytes is long enough for every call. */
#define RITHENNAW_IMAGE_MIN 40
#define RITHENNAW_IMAGE_MAX 7812

/* An output of RITHENNAW_SHEET_MAX bytes is long enough for every observer sheet. */
#define RITHENNAW_SHEET_MAX 318

/*
 * The lengths of the longest program and of the longest listing, 256 lines of 17 bytes. Outputs of these lengths are long
 * enough for every program that is assembled and for every one that is disassembled.
 */
#define RITHENNAW_PROGRAM_MAX 1024
#define RITHENNAW_LISTING_MAX 4352

/* The most turns in one call, the highest label, of an observer and of a message, and the highest slot. */
#define RITHENNAW_TURNS_MAX 1000000
#define RITHENNAW_OBSERVER_MAX 15
#define RITHENNAW_LABEL_MAX 15
#define RITHENNAW_SLOT_MAX 15

/* The sender of a posted message: the host, who stands in no slot. A task that receives the message is told this number. */
#define RITHENNAW_HOST 16

/* Stack that is enough for one call, in bytes. */
#define RITHENNAW_STACK 32768

/* The numbers that a call returns. Each has a sentence, which rithennaw_refusal_text gives. */
enum rithennaw_number {
    /* The call was accepted. */
    RITHENNAW_ACCEPTED = 0,
    /* The label asked for is above 15. */
    RITHENNAW_REFUSED_OBSERVER = 1,
    /* More than 1,000,000 turns were asked for. */
    RITHENNAW_REFUSED_TURN_LIMIT = 2,
    /* The image ends before the last byte of the field or part being read. */
    RITHENNAW_REFUSED_SHORT = 3,
    /* The image's first byte, its version, is neither 1 nor 2. */
    RITHENNAW_REFUSED_VERSION = 4,
    /* The program's length is no multiple of 4 from 4 to 1,024: 1 to 256 instructions. */
    RITHENNAW_REFUSED_PROGRAM_LENGTH = 5,
    /* An instruction isn't in the table, or has an operand outside it. */
    RITHENNAW_REFUSED_INSTRUCTION = 6,
    /* The turn slot is above 15. */
    RITHENNAW_REFUSED_TURN_SLOT = 7,
    /* A record's length is neither 0 nor 37 + 6 * k (38 + 6 * k in version 2), k at most 64. */
    RITHENNAW_REFUSED_RECORD_LENGTH = 8,
    /* A task's kind, label, clearance or place is out of range, its label isn't within its clearance, or slot + spare is above 15. */
    RITHENNAW_REFUSED_TASK_FIELD = 9,
    /* A message's label is above 15 or its sender above 16, or five or more are of one label. */
    RITHENNAW_REFUSED_MAIL = 10,
    /* There are bytes after slot 15. */
    RITHENNAW_REFUSED_TAIL = 11,
    /* A used slot lies in another task's spare. */
    RITHENNAW_REFUSED_ESTATE = 12,
    /* The output is shorter than the answer. */
    RITHENNAW_REFUSED_OUTPUT = 13,
    /* The slot posted to is above 15. */
    RITHENNAW_REFUSED_POST_SLOT = 14,
    /* The label of the message posted is above 15. */
    RITHENNAW_REFUSED_POST_LABEL = 15,
    /* The text isn't a list of lines, each a word of the table, three numbers and a line feed. */
    RITHENNAW_REFUSED_TEXT = 16
};

/* The sentence for a number, in English: that of the enum above, or one which says that the number is none of it. */
static inline const char *rithennaw_refusal_text(uint8_t number)
{
    switch (number) {
    case RITHENNAW_ACCEPTED: return "The call was accepted.";
    case RITHENNAW_REFUSED_OBSERVER: return "The label asked for is above 15.";
    case RITHENNAW_REFUSED_TURN_LIMIT: return "More than 1,000,000 turns were asked for.";
    case RITHENNAW_REFUSED_SHORT: return "The image ends before the last byte of the field or part being read.";
    case RITHENNAW_REFUSED_VERSION: return "The image's first byte, its version, is neither 1 nor 2.";
    case RITHENNAW_REFUSED_PROGRAM_LENGTH: return "The program's length is no multiple of 4 from 4 to 1,024: 1 to 256 instructions.";
    case RITHENNAW_REFUSED_INSTRUCTION: return "An instruction isn't in the table, or has an operand outside it.";
    case RITHENNAW_REFUSED_TURN_SLOT: return "The turn slot is above 15.";
    case RITHENNAW_REFUSED_RECORD_LENGTH: return "A record's length is neither 0 nor 37 + 6 * k (38 + 6 * k in version 2), k at most 64.";
    case RITHENNAW_REFUSED_TASK_FIELD: return "A task's kind, label, clearance or place is out of range, its label isn't within its clearance, or slot + spare is above 15.";
    case RITHENNAW_REFUSED_MAIL: return "A message's label is above 15 or its sender above 16, or five or more are of one label.";
    case RITHENNAW_REFUSED_TAIL: return "There are bytes after slot 15.";
    case RITHENNAW_REFUSED_ESTATE: return "A used slot lies in another task's spare.";
    case RITHENNAW_REFUSED_OUTPUT: return "The output is shorter than the answer.";
    case RITHENNAW_REFUSED_POST_SLOT: return "The slot posted to is above 15.";
    case RITHENNAW_REFUSED_POST_LABEL: return "The label of the message posted is above 15.";
    case RITHENNAW_REFUSED_TEXT: return "The text isn't a list of lines, each a word of the table, three numbers and a line feed.";
    default: return "No call of this version returns this number.";
    }
}

/*
 * The number of the image, by itself: 0 where it is accepted. No other call then refuses it but for its own arguments, with
 * 1, 2, 13, 14 or 15. There is no output.
 * Returns 0, or 3 to 12.
 */
uint8_t rithennaw_check(const uint8_t *image, size_t image_len);

/*
 * Where the record of a slot stands in the image: its bytes, without the 2-byte length ahead of them, are the *length
 * bytes from image + *start on. Both are 0 where there is none: for an unused slot, a slot above 15 and a refused image.
 * There is no number; `rithennaw_check` returns the image's.
 */
void rithennaw_record(const uint8_t *image, size_t image_len, uint32_t slot, size_t *start, size_t *length);

/*
 * Writes the image again as it was read: the bytes of an accepted image, *length of them.
 * Returns 0, 3 to 12, or 13 where out_len is less than image_len.
 */
uint8_t rithennaw_rewrite(const uint8_t *image, size_t image_len, uint8_t *out, size_t out_len, size_t *length);

/*
 * Runs `count` turns, at most 1,000,000, and writes the image after them; 0 turns write the image as it was. *busy is the
 * number of turns that met a live task. A refused call has carried out no turn. The output cannot be the image; to go on,
 * exchange the two buffers.
 * What this call tells and writes depends on all tasks, hidden ones too: the image, *length, *busy, a 13 and the time it
 * takes are for the host alone. An observer is given what rithennaw_view writes, and sees how many turns were run: `count`,
 * and when it is called, must not be chosen by what is hidden from it, such as *busy.
 * Returns 0, 2, 3 to 12, or 13 where the image after the turns has more than out_len bytes.
 */
uint8_t rithennaw_turns(const uint8_t *image, size_t image_len, uint64_t count, uint8_t *out, size_t out_len,
                        size_t *length, uint64_t *busy);

/*
 * Posts a message of that label and value to a slot, and writes the image after it; no turn is run. Where the slot has a
 * live task with fewer than four messages of that label, the message joins the end of its mailbox, with RITHENNAW_HOST as
 * its sender, and *delivered is 1. Else it is dropped: the image is written as it was and *delivered is 0, but the call is
 * accepted. The task receives the message as it does any other, once the message's label flows to its own.
 * What this call tells and writes depends on all tasks, hidden ones too: *delivered, the image, *length, a 13 and the time
 * it takes are for the host alone. A post is no secret from an observer to whom its label flows: whether and when it is
 * made, and its slot, label and value, must not be chosen by what is hidden from that observer, such as *delivered.
 * Returns 0, 14 where the slot is above 15, 15 where the label is, 3 to 12, or 13 where the image after the post has more
 * than out_len bytes.
 */
uint8_t rithennaw_post(const uint8_t *image, size_t image_len, uint32_t slot, uint32_t label, uint32_t value,
                       uint8_t *out, size_t out_len, size_t *length, uint8_t *delivered);

/*
 * Writes the view for an observer, a label 0 to 15: the image in which a task whose label doesn't flow to the observer's
 * is written as unused, and messages whose labels don't are left out of the rest. It is an accepted image itself; for
 * label 15 it is the image, and of a view for another label it is the view for the owners that both have.
 * An observer who runs its view for as many turns as the host runs the image, with the posts whose labels flow to the
 * observer's, each after as many turns and in the same order, and then takes the view again, comes to the view of the host's
 * run. What the observer's run has beyond that view says nothing of the host's.
 * Returns 0, 1, 3 to 12, or 13 where the view has more than out_len bytes.
 */
uint8_t rithennaw_view(const uint8_t *image, size_t image_len, uint32_t observer, uint8_t *out, size_t out_len,
                       size_t *length);

/*
 * Writes the observer sheet: what the view for an observer shows, as text. A heading, and a line for each used slot of the
 * view: slot, kind, label, spare, place and number of messages in decimal, with single spaces between them. It is ASCII,
 * every line ends with a line feed, and no 0 byte stands behind it.
 * Returns 0, 1, 3 to 12, or 13 where the sheet has more than out_len bytes.
 */
uint8_t rithennaw_sheet(const uint8_t *image, size_t image_len, uint32_t observer, uint8_t *out, size_t out_len,
                        size_t *length);

/*
 * Writes the program of a text, as it stands in an image behind its 2-byte length: four bytes for each line. A line is a
 * word of the table of instructions, then a, b and c in decimal without leading zeros, single spaces between, and a line
 * feed, on the last line too. Nothing else belongs to the text: no empty line, no carriage return, no 0 byte behind it.
 * Returns 0; 16 where the text isn't a list of such lines; 5 where it has none, as the empty text, or more than 256; 6 where
 * an operand is outside the table, as every number above 255 is, however long; or 13 where the program has more than
 * out_len bytes.
 */
uint8_t rithennaw_assemble(const uint8_t *text, size_t text_len, uint8_t *out, size_t out_len, size_t *length);

/*
 * Writes the listing of a program: the text of which `rithennaw_assemble` makes the same bytes, a line for each instruction.
 * It is ASCII, every line ends with a line feed, and no 0 byte stands behind it. A text that was assembled comes back as it
 * was typed. The program of an accepted image is the 256 * image[1] + image[2] bytes from image + 3 on.
 * Returns 0; 5 where program_len is no multiple of 4 from 4 to 1,024; 6; or 13 where the listing has more than out_len bytes.
 */
uint8_t rithennaw_disassemble(const uint8_t *program, size_t program_len, uint8_t *out, size_t out_len, size_t *length);

/* The debug aid: the name of each function above is made to stand for one that asserts first and then calls it. */
#if defined RITHENNAW_DEBUG && !defined NDEBUG

/* Behind a byte a number stands as far as its alignment is. */
struct rithennaw_debug_size {
    char byte;
    size_t number;
};
struct rithennaw_debug_count {
    char byte;
    uint64_t number;
};

/* Where a pointer points to. C++ has a cast of its own for it, and a host may be compiled with warnings about C's. */
static inline uintptr_t rithennaw_debug_address(const void *pointer)
{
#ifdef __cplusplus
    return reinterpret_cast<uintptr_t>(pointer);
#else
    return (uintptr_t)pointer;
#endif
}

static inline int rithennaw_debug_aligned(const void *number, size_t alignment)
{
    return rithennaw_debug_address(number) % alignment == 0;
}

/* Whether two parts of memory have no byte in common. An empty part has none, wherever it is. */
static inline int rithennaw_debug_apart(const void *one, size_t one_len, const void *other, size_t other_len)
{
    const uintptr_t a = rithennaw_debug_address(one), b = rithennaw_debug_address(other);
    return one_len == 0 || other_len == 0 || (a < b ? b - a >= one_len : a - b >= other_len);
}

/*
 * What every call that writes is lent: what it reads, image, text or program, and the rest under the names that its
 * parameters have. It is a macro, since an assertion that fails tells its own words and the function that it stands in: so
 * it tells the call and the parameter.
 */
#define RITHENNAW_DEBUG_LENT(input, input_len) \
    do { \
        assert(input != NULL); \
        assert(out != NULL); \
        assert(length != NULL); \
        assert(rithennaw_debug_aligned(length, offsetof(struct rithennaw_debug_size, number))); \
        assert(rithennaw_debug_apart(input, input_len, out, out_len)); \
        assert(rithennaw_debug_apart(input, input_len, length, sizeof *length)); \
        assert(rithennaw_debug_apart(out, out_len, length, sizeof *length)); \
    } while (0)

/* What such a call tells beside the length, through one more pointer. */
#define RITHENNAW_DEBUG_TELLS(input, input_len, number) \
    do { \
        assert(number != NULL); \
        assert(rithennaw_debug_apart(input, input_len, number, sizeof *number)); \
        assert(rithennaw_debug_apart(out, out_len, number, sizeof *number)); \
        assert(rithennaw_debug_apart(length, sizeof *length, number, sizeof *number)); \
    } while (0)

static inline uint8_t rithennaw_debug_check(const uint8_t *image, size_t image_len)
{
    assert(image != NULL);
    return rithennaw_check(image, image_len);
}

static inline void rithennaw_debug_record(const uint8_t *image, size_t image_len, uint32_t slot, size_t *start,
                                          size_t *length)
{
    assert(image != NULL);
    assert(start != NULL);
    assert(length != NULL);
    assert(rithennaw_debug_aligned(start, offsetof(struct rithennaw_debug_size, number)));
    assert(rithennaw_debug_aligned(length, offsetof(struct rithennaw_debug_size, number)));
    assert(rithennaw_debug_apart(image, image_len, start, sizeof *start));
    assert(rithennaw_debug_apart(image, image_len, length, sizeof *length));
    assert(rithennaw_debug_apart(start, sizeof *start, length, sizeof *length));
    rithennaw_record(image, image_len, slot, start, length);
}

static inline uint8_t rithennaw_debug_rewrite(const uint8_t *image, size_t image_len, uint8_t *out, size_t out_len,
                                              size_t *length)
{
    RITHENNAW_DEBUG_LENT(image, image_len);
    return rithennaw_rewrite(image, image_len, out, out_len, length);
}

static inline uint8_t rithennaw_debug_turns(const uint8_t *image, size_t image_len, uint64_t count, uint8_t *out,
                                            size_t out_len, size_t *length, uint64_t *busy)
{
    RITHENNAW_DEBUG_LENT(image, image_len);
    RITHENNAW_DEBUG_TELLS(image, image_len, busy);
    assert(rithennaw_debug_aligned(busy, offsetof(struct rithennaw_debug_count, number)));
    return rithennaw_turns(image, image_len, count, out, out_len, length, busy);
}

static inline uint8_t rithennaw_debug_post(const uint8_t *image, size_t image_len, uint32_t slot, uint32_t label,
                                           uint32_t value, uint8_t *out, size_t out_len, size_t *length,
                                           uint8_t *delivered)
{
    RITHENNAW_DEBUG_LENT(image, image_len);
    RITHENNAW_DEBUG_TELLS(image, image_len, delivered);
    return rithennaw_post(image, image_len, slot, label, value, out, out_len, length, delivered);
}

static inline uint8_t rithennaw_debug_view(const uint8_t *image, size_t image_len, uint32_t observer, uint8_t *out,
                                           size_t out_len, size_t *length)
{
    RITHENNAW_DEBUG_LENT(image, image_len);
    return rithennaw_view(image, image_len, observer, out, out_len, length);
}

static inline uint8_t rithennaw_debug_sheet(const uint8_t *image, size_t image_len, uint32_t observer, uint8_t *out,
                                            size_t out_len, size_t *length)
{
    RITHENNAW_DEBUG_LENT(image, image_len);
    return rithennaw_sheet(image, image_len, observer, out, out_len, length);
}

static inline uint8_t rithennaw_debug_assemble(const uint8_t *text, size_t text_len, uint8_t *out, size_t out_len,
                                               size_t *length)
{
    RITHENNAW_DEBUG_LENT(text, text_len);
    return rithennaw_assemble(text, text_len, out, out_len, length);
}

static inline uint8_t rithennaw_debug_disassemble(const uint8_t *program, size_t program_len, uint8_t *out,
                                                  size_t out_len, size_t *length)
{
    RITHENNAW_DEBUG_LENT(program, program_len);
    return rithennaw_disassemble(program, program_len, out, out_len, length);
}

#define rithennaw_check rithennaw_debug_check
#define rithennaw_record rithennaw_debug_record
#define rithennaw_rewrite rithennaw_debug_rewrite
#define rithennaw_turns rithennaw_debug_turns
#define rithennaw_post rithennaw_debug_post
#define rithennaw_view rithennaw_debug_view
#define rithennaw_sheet rithennaw_debug_sheet
#define rithennaw_assemble rithennaw_debug_assemble
#define rithennaw_disassemble rithennaw_debug_disassemble

#endif

#ifdef __cplusplus
}
#endif

#endif
