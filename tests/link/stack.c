/*
 * The stack that each call takes, which must be less than the header says: a thread with a stack of its own fills what is
 * free of it with a pattern, calls, and looks how deep the pattern was overwritten. The figures count from the frame of the
 * function that calls.
 */
#define _XOPEN_SOURCE 600
#include <pthread.h>
#include <stdint.h>
#include <stdio.h>
#include <stdlib.h>
#include <string.h>

#include "rithennaw.h"

/* The bytes below the caller's frame that are not filled, since its own code may use them: no figure is less. */
enum { STACK = 1 << 20, PATTERN = 0xa5, MARGIN = 512 };

/* The image that the calls take, of version 2: sixteen live tasks that take, poll and send to slot 1, each with 64 messages,
 * four of each label; but slot 15 has room for one of label 15, which is posted. And the longest program and its text. */
static uint8_t image[RITHENNAW_IMAGE_MAX];
static size_t image_len;
static uint8_t program[RITHENNAW_PROGRAM_MAX];
static uint8_t text[RITHENNAW_LISTING_MAX];
static uint8_t out[RITHENNAW_IMAGE_MAX];
static size_t start, length;
static uint64_t busy;
static uint8_t delivered;

static void put(unsigned byte)
{
    image[image_len++] = (uint8_t)byte;
}

static void make_image(void)
{
    /* take 3 4, send 1 0 2, poll 3 4 0, go 0 */
    static const uint8_t program[16] = {0x09, 3, 4, 0, 0x08, 1, 0, 2, 0x0a, 3, 4, 0, 0x05, 0, 0, 0};
    unsigned slot, mail, length_of_record, i;
    put(2);
    put(0);
    put(sizeof program);
    for (i = 0; i < sizeof program; i++) {
        put(program[i]);
    }
    put(0);
    for (slot = 0; slot < 16; slot++) {
        mail = slot < 15 ? 64 : 63;
        length_of_record = 38 + 6 * mail;
        put(length_of_record >> 8);
        put(length_of_record & 0xff);
        for (i = 0; i < 38; i++) {
            put(i == 0 || i == 6 + 4 * 1 + 3); /* kind 1, register 1 holds 1, all else 0 */
        }
        for (i = 0; i < mail; i++) {
            put(i % 16);
            put(slot);
            put(0);
            put(0);
            put(0);
            put(i);
        }
    }
}

static void make_program(void)
{
    static const uint8_t instruction[4] = {0x0b, 7, 255, 15};
    static const char line[] = "sandbox 7 255 15\n";
    unsigned i;
    for (i = 0; i < 256; i++) {
        memcpy(program + 4 * i, instruction, 4);
        memcpy(text + 17 * i, line, 17);
    }
}

/* ---- the calls, each with its number */

static unsigned check(void)
{
    return rithennaw_check(image, image_len);
}

static unsigned record(void)
{
    rithennaw_record(image, image_len, 15, &start, &length);
    return length == 0;
}

static unsigned rewrite(void)
{
    return rithennaw_rewrite(image, image_len, out, sizeof out, &length);
}

static unsigned turns(void)
{
    return rithennaw_turns(image, image_len, 1000, out, sizeof out, &length, &busy);
}

static unsigned post(void)
{
    unsigned refused = rithennaw_post(image, image_len, 15, 15, 700, out, sizeof out, &length, &delivered);
    return refused != 0 ? refused : delivered != 1;
}

static unsigned view(void)
{
    return rithennaw_view(image, image_len, 7, out, sizeof out, &length);
}

static unsigned sheet(void)
{
    return rithennaw_sheet(image, image_len, 7, out, sizeof out, &length);
}

static unsigned assemble(void)
{
    return rithennaw_assemble(text, sizeof text, out, sizeof out, &length);
}

static unsigned disassemble(void)
{
    return rithennaw_disassemble(program, sizeof program, out, sizeof out, &length);
}

/* ---- the thread */

static uint8_t *stack;
static unsigned (*call)(void);
static unsigned number;
static size_t taken;

static void *measured(void *unused)
{
    volatile uint8_t here = 0;
    uint8_t *end = (uint8_t *)((uintptr_t)&here - MARGIN);
    uint8_t *at;
    for (at = stack; at < end; at++) {
        *at = PATTERN;
    }
    number = call();
    for (at = stack; at < end && *at == PATTERN; at++) {
    }
    taken = (uintptr_t)&here - (uintptr_t)at;
    return unused;
}

static int run(unsigned (*one)(void))
{
    pthread_attr_t attributes;
    pthread_t thread;
    call = one;
    return pthread_attr_init(&attributes) == 0 && pthread_attr_setstack(&attributes, stack, STACK) == 0
           && pthread_create(&thread, &attributes, measured, NULL) == 0 && pthread_join(thread, NULL) == 0
           && pthread_attr_destroy(&attributes) == 0;
}

int main(void)
{
    static const struct {
        const char *name;
        unsigned (*call)(void);
    } calls[] = {{"turns", turns}, {"post", post}, {"view", view}, {"sheet", sheet},
                 {"rewrite", rewrite}, {"record", record}, {"check", check},
                 {"assemble", assemble}, {"disassemble", disassemble}};
    void *memory;
    size_t i;
    int status = 0;
    make_image();
    make_program();
    if (posix_memalign(&memory, 4096, STACK) != 0) {
        fprintf(stderr, "stack.c: no memory for a stack\n");
        return 1;
    }
    stack = memory;
    for (i = 0; i < sizeof calls / sizeof calls[0]; i++) {
        /* the first call counts what the loader takes to bind the names that it uses, the second the call alone */
        int again;
        for (again = 0; again < 2; again++) {
            if (!run(calls[i].call)) {
                fprintf(stderr, "stack.c: no thread\n");
                return 1;
            }
            if (number != 0) {
                fprintf(stderr, "stack.c: rithennaw_%s was refused with %u\n", calls[i].name, number);
                status = 1;
            }
            printf("rithennaw_%-11s %6zu bytes of stack, %s call\n", calls[i].name, taken, again ? "second" : "first");
            if (taken < MARGIN || taken >= RITHENNAW_STACK) {
                fprintf(stderr, "stack.c: not measured, or not less than the %d that the header says\n", RITHENNAW_STACK);
                status = 1;
            }
        }
    }
    free(memory);
    return status;
}
