/*
 * The header's debug aid. With RITHENNAW_DEBUG, calls that are lent what the header asks for tell what they tell without it,
 * and each fault that the aid can see ends a child process by SIGABRT, with the assertion that names it, and with the call's
 * name. C99 and C++11.
 */
#define _XOPEN_SOURCE 700
#include <signal.h>
#include <stdio.h>
#include <string.h>
#include <sys/resource.h>
#include <sys/types.h>
#include <sys/wait.h>
#include <unistd.h>

#define RITHENNAW_DEBUG
#include "rithennaw.h"

/* ---- checks: each is counted, and one that fails is named */

static unsigned checks, faults;

static void expect(int holds, const char *call, const char *what)
{
    checks++;
    if (!holds) {
        faults++;
        fprintf(stderr, "debug.c: %s: %s\n", call, what);
    }
}

/* ---- what is lent: places in one part of memory and lengths, side by side with no byte between them */

enum field { INPUT, INPUT_LEN, OUT, OUT_LEN, LENGTH, BUSY, START, DELIVERED, FIELDS };

struct lent {
    int field[FIELDS];
};

static union {
    uint8_t bytes[256];
    uint64_t aligned;
} memory;

/*
 * The input, of as many bytes as the shortest image, an output of as many, and the numbers. FREE is a place behind them,
 * aligned as they are, NOWHERE the null pointer.
 */
enum {
    SHORTEST = RITHENNAW_IMAGE_MIN,
    LENGTH_AT = 2 * SHORTEST,
    BUSY_AT = LENGTH_AT + sizeof(size_t),
    START_AT = BUSY_AT + sizeof(uint64_t),
    DELIVERED_AT = START_AT + sizeof(size_t),
    FREE = DELIVERED_AT + sizeof(uint64_t),
    NOWHERE = -1
};
static const struct lent good = {{0, SHORTEST, SHORTEST, SHORTEST, LENGTH_AT, BUSY_AT, START_AT, DELIVERED_AT}};

/* What is lent, with one field changed. */
static struct lent with(struct lent lent, enum field field, int value)
{
    lent.field[field] = value;
    return lent;
}

static void *place(const struct lent *lent, enum field field)
{
    return lent->field[field] == NOWHERE ? NULL : memory.bytes + lent->field[field];
}

/* A program of one instruction, end, and no task. */
static void make_image(void)
{
    static const uint8_t head[4] = {1, 0, 4, 0};
    memset(memory.bytes, 0, sizeof memory.bytes);
    memcpy(memory.bytes, head, sizeof head);
}

/* ---- the calls, each with its number; the input is the image, the text or the program */

static unsigned check(const struct lent *lent)
{
    return rithennaw_check((uint8_t *)place(lent, INPUT), (size_t)lent->field[INPUT_LEN]);
}

static unsigned record(const struct lent *lent)
{
    rithennaw_record((uint8_t *)place(lent, INPUT), (size_t)lent->field[INPUT_LEN], 0, (size_t *)place(lent, START),
                     (size_t *)place(lent, LENGTH));
    return 0;
}

static unsigned rewrite(const struct lent *lent)
{
    return rithennaw_rewrite((uint8_t *)place(lent, INPUT), (size_t)lent->field[INPUT_LEN], (uint8_t *)place(lent, OUT),
                             (size_t)lent->field[OUT_LEN], (size_t *)place(lent, LENGTH));
}

static unsigned turns(const struct lent *lent)
{
    return rithennaw_turns((uint8_t *)place(lent, INPUT), (size_t)lent->field[INPUT_LEN], 16, (uint8_t *)place(lent, OUT),
                           (size_t)lent->field[OUT_LEN], (size_t *)place(lent, LENGTH), (uint64_t *)place(lent, BUSY));
}

static unsigned post(const struct lent *lent)
{
    return rithennaw_post((uint8_t *)place(lent, INPUT), (size_t)lent->field[INPUT_LEN], 0, 0, 0,
                          (uint8_t *)place(lent, OUT), (size_t)lent->field[OUT_LEN], (size_t *)place(lent, LENGTH),
                          (uint8_t *)place(lent, DELIVERED));
}

static unsigned view(const struct lent *lent)
{
    return rithennaw_view((uint8_t *)place(lent, INPUT), (size_t)lent->field[INPUT_LEN], 15, (uint8_t *)place(lent, OUT),
                          (size_t)lent->field[OUT_LEN], (size_t *)place(lent, LENGTH));
}

static unsigned sheet(const struct lent *lent)
{
    return rithennaw_sheet((uint8_t *)place(lent, INPUT), (size_t)lent->field[INPUT_LEN], 15, (uint8_t *)place(lent, OUT),
                           (size_t)lent->field[OUT_LEN], (size_t *)place(lent, LENGTH));
}

static unsigned assemble(const struct lent *lent)
{
    return rithennaw_assemble((uint8_t *)place(lent, INPUT), (size_t)lent->field[INPUT_LEN], (uint8_t *)place(lent, OUT),
                              (size_t)lent->field[OUT_LEN], (size_t *)place(lent, LENGTH));
}

static unsigned disassemble(const struct lent *lent)
{
    return rithennaw_disassemble((uint8_t *)place(lent, INPUT), (size_t)lent->field[INPUT_LEN],
                                 (uint8_t *)place(lent, OUT), (size_t)lent->field[OUT_LEN],
                                 (size_t *)place(lent, LENGTH));
}

/* Each with the function that asserts, as a failing assertion names it. The calls that write stand last. */
struct call {
    const char *name;
    unsigned (*make)(const struct lent *lent);
};
static const struct call calls[] = {
    {"rithennaw_debug_check", check}, {"rithennaw_debug_record", record}, {"rithennaw_debug_rewrite", rewrite},
    {"rithennaw_debug_turns", turns}, {"rithennaw_debug_post", post}, {"rithennaw_debug_view", view},
    {"rithennaw_debug_sheet", sheet}, {"rithennaw_debug_assemble", assemble},
    {"rithennaw_debug_disassemble", disassemble}
};
enum {
    CHECK = 1,
    RECORD = 2,
    TURNS = 8,
    POST = 16,
    OF_IMAGE = 4 + TURNS + POST + 32 + 64,
    ASSEMBLE = 128,
    DISASSEMBLE = 256,
    WRITING = OF_IMAGE + ASSEMBLE + DISASSEMBLE,
    CALLS = 9
};

/* ---- calls as the header asks for them */

/* Each of those calls tells that number. */
static void passes(const char *what, unsigned which, struct lent lent, unsigned number)
{
    unsigned i;
    for (i = 0; i < CALLS; i++) {
        if ((which >> i & 1) != 0) {
            make_image();
            expect(calls[i].make(&lent) == number, calls[i].name, what);
        }
    }
}

static void try_good(void)
{
    size_t evaluated = 0;
    uint8_t (*by_pointer)(const uint8_t *, size_t) = rithennaw_check;
    passes("parts that touch", CHECK | RECORD | OF_IMAGE, good, RITHENNAW_ACCEPTED);
    passes("a delivery told at an odd address", POST, with(good, DELIVERED, FREE + 1), RITHENNAW_ACCEPTED);
    passes("an output ahead of the image, which is all 0", OF_IMAGE, with(with(good, OUT, 0), INPUT, SHORTEST),
           RITHENNAW_REFUSED_VERSION);
    passes("an empty output amid the image", OF_IMAGE, with(with(good, OUT, 8), OUT_LEN, 0), RITHENNAW_REFUSED_OUTPUT);
    passes("an empty image amid the output", OF_IMAGE, with(with(good, INPUT, SHORTEST + 8), INPUT_LEN, 0),
           RITHENNAW_REFUSED_SHORT);
    make_image();
    expect(turns(&good) == 0 && memcmp(memory.bytes, memory.bytes + SHORTEST, SHORTEST) == 0, "turns",
           "the image after 16 turns without a task");
    expect(rithennaw_check(memory.bytes + evaluated++, SHORTEST) == RITHENNAW_ACCEPTED && evaluated == 1, "check",
           "arguments are evaluated once");
    expect(by_pointer == rithennaw_debug_check, "check", "a pointer to a call points to the one that asserts");
}

/* Four lines, and the program behind them that is assembled of them; then the other way round. */
static void try_good_text(void)
{
    static const char text[SHORTEST + 1] = "end 0 0 0\nend 0 0 0\nend 0 0 0\nend 0 0 0\n";
    const struct lent back = with(with(with(good, INPUT, SHORTEST), INPUT_LEN, 16), OUT, 0);
    memcpy(memory.bytes, text, SHORTEST);
    expect(assemble(&good) == RITHENNAW_ACCEPTED, "assemble", "parts that touch");
    memset(memory.bytes, 1, SHORTEST);
    expect(disassemble(&back) == RITHENNAW_ACCEPTED && memcmp(memory.bytes, text, SHORTEST) == 0, "disassemble",
           "parts that touch");
    passes("an empty output amid the text, which is an image", ASSEMBLE, with(with(good, OUT, 8), OUT_LEN, 0),
           RITHENNAW_REFUSED_TEXT);
    passes("an empty output amid the program", DISASSEMBLE, with(with(good, OUT, 8), OUT_LEN, 0),
           RITHENNAW_REFUSED_OUTPUT);
    passes("an empty input amid the output", ASSEMBLE | DISASSEMBLE, with(with(good, INPUT, SHORTEST + 8), INPUT_LEN, 0),
           RITHENNAW_REFUSED_PROGRAM_LENGTH);
}

/* ---- faults */

/* Whether the call is aborted in a child process, which says the call and the assertion on standard error. */
static int is_aborted(const struct call *call, const struct lent *lent, const char *assertion)
{
    char said[1024];
    size_t said_len = 0;
    ssize_t part;
    int ends[2], status;
    pid_t child;
    if (pipe(ends) != 0 || (child = fork()) < 0) {
        return 0;
    }
    if (child == 0) {
        dup2(ends[1], STDERR_FILENO);
        call->make(lent);
        _exit(0);
    }
    close(ends[1]);
    while ((part = read(ends[0], said + said_len, sizeof said - 1 - said_len)) > 0) {
        said_len += (size_t)part;
    }
    said[said_len] = '\0';
    close(ends[0]);
    return waitpid(child, &status, 0) == child && WIFSIGNALED(status) && WTERMSIG(status) == SIGABRT
           && strstr(said, call->name) != NULL && strstr(said, assertion) != NULL;
}

/* Each of those calls is aborted. */
static void aborts(const char *assertion, unsigned which, struct lent lent)
{
    unsigned i;
    for (i = 0; i < CALLS; i++) {
        if ((which >> i & 1) != 0) {
            make_image();
            expect(is_aborted(&calls[i], &lent, assertion), calls[i].name, assertion);
        }
    }
}

/* What those calls read, by the name that it has in them. Overlaps: the same place, and the last or the first byte alone. */
static void try_input(const char *input, unsigned which)
{
    char null[100], input_out[100], input_length[100];
    snprintf(null, sizeof null, "%s != NULL", input);
    snprintf(input_out, sizeof input_out, "rithennaw_debug_apart(%s, %s_len, out, out_len)", input, input);
    snprintf(input_length, sizeof input_length, "rithennaw_debug_apart(%s, %s_len, length, sizeof *length)", input, input);
    aborts(null, which, with(good, INPUT, NOWHERE));
    aborts(input_out, which & WRITING, with(good, OUT, 0));
    aborts(input_out, which & WRITING, with(good, OUT, SHORTEST - 1));
    aborts(input_out, which & WRITING, with(good, INPUT, 2 * SHORTEST - 1));
    aborts(input_length, which & (RECORD | WRITING), with(good, LENGTH, 0));
    aborts(input_length, which & (RECORD | WRITING), with(with(with(good, LENGTH, 0), INPUT, 7), INPUT_LEN, 1));
}

static void try_null(void)
{
    aborts("out != NULL", WRITING, with(good, OUT, NOWHERE));
    aborts("length != NULL", RECORD | WRITING, with(good, LENGTH, NOWHERE));
    aborts("start != NULL", RECORD, with(good, START, NOWHERE));
    aborts("busy != NULL", TURNS, with(good, BUSY, NOWHERE));
    aborts("delivered != NULL", POST, with(good, DELIVERED, NOWHERE));
}

static void try_alignment(void)
{
    aborts("rithennaw_debug_aligned(length,", RECORD | WRITING, with(good, LENGTH, FREE + 1));
    aborts("rithennaw_debug_aligned(start,", RECORD, with(good, START, FREE + 4));
    aborts("rithennaw_debug_aligned(busy,", TURNS, with(good, BUSY, FREE + 4));
}

/* Overlaps of what is written, the same place or a byte alone in common, and of the numbers that some calls tell. */
static void try_overlap(void)
{
    const char *out_length = "rithennaw_debug_apart(out, out_len, length, sizeof *length)";
    const char *image_start = "rithennaw_debug_apart(image, image_len, start, sizeof *start)";
    const char *start_length = "rithennaw_debug_apart(start, sizeof *start, length, sizeof *length)";
    const char *image_busy = "rithennaw_debug_apart(image, image_len, busy, sizeof *busy)";
    const char *out_busy = "rithennaw_debug_apart(out, out_len, busy, sizeof *busy)";
    const char *length_busy = "rithennaw_debug_apart(length, sizeof *length, busy, sizeof *busy)";
    const char *image_delivered = "rithennaw_debug_apart(image, image_len, delivered, sizeof *delivered)";
    const char *out_delivered = "rithennaw_debug_apart(out, out_len, delivered, sizeof *delivered)";
    const char *length_delivered = "rithennaw_debug_apart(length, sizeof *length, delivered, sizeof *delivered)";
    aborts(out_length, WRITING, with(good, LENGTH, SHORTEST));
    aborts(out_length, WRITING, with(good, OUT_LEN, SHORTEST + 1));
    aborts(image_start, RECORD, with(good, START, 0));
    aborts(start_length, RECORD, with(good, START, LENGTH_AT));
    aborts(image_busy, TURNS, with(good, BUSY, 0));
    aborts(out_busy, TURNS, with(good, BUSY, SHORTEST));
    aborts(length_busy, TURNS, with(good, BUSY, LENGTH_AT));
    aborts(image_delivered, POST, with(good, DELIVERED, SHORTEST - 1));
    aborts(out_delivered, POST, with(good, DELIVERED, SHORTEST));
    aborts(length_delivered, POST, with(good, DELIVERED, BUSY_AT - 1));
}

int main(void)
{
    const struct rlimit no_core = {0, 0};
    setrlimit(RLIMIT_CORE, &no_core);
    try_good();
    try_good_text();
    try_input("image", CHECK | RECORD | OF_IMAGE);
    try_input("text", ASSEMBLE);
    try_input("program", DISASSEMBLE);
    try_null();
    try_alignment();
    try_overlap();
    printf("debug.c: %u checks, %u failed\n", checks, faults);
    return faults == 0 ? 0 : 1;
}
