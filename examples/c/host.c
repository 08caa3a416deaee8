/*
 * host.c: a small host of the monitor, to copy from. It loads an image from a file, runs turns, and shows each observer's
 * sheet before and after them.
 *
 *     cc -std=c99 host.c $(pkg-config --cflags --libs rithennaw) -o host
 *     ./host IMAGE TURNS [OBSERVER...]
 *
 * Where the monitor was installed below another PREFIX than /usr/local, pkg-config needs
 * PKG_CONFIG_PATH=PREFIX/lib/pkgconfig.
 *
 * An observer is a label. Without one these are shown: the public (0), each of the four owners (1, 2, 4, 8) and the host
 * (15). Exit status: 0; 1 where the monitor refuses a call; 2 where the arguments are wrong, the file cannot be read or
 * the output cannot be written.
 */
#include <errno.h>
#include <inttypes.h>
#include <stdio.h>
#include <string.h>

#include <rithennaw.h>

enum { STATUS_REFUSED = 1, STATUS_UNUSABLE = 2 };

/* ---- refusals */

/*
 * Says which rule a call was refused by. What was shown so far goes out first, so that the two stand in order where
 * standard output and standard error are one file.
 */
static int refused(const char *call, uint8_t number)
{
    fflush(stdout);
    fprintf(stderr, "host: %s refused with %u: %s\n", call, (unsigned)number, rithennaw_refusal_text(number));
    return STATUS_REFUSED;
}

/* ---- images */

/*
 * Room for the longest image and one byte more. The byte more is for files that are too long: only number 11 (bytes after
 * slot 15) asks about what is behind the longest image, and for it one byte is as good as many. So the front of a longer
 * file is refused with the number that the whole file would have, and no file overflows the room.
 */
struct image {
    uint8_t bytes[RITHENNAW_IMAGE_MAX + 1];
    size_t length;
};

static int unreadable(const char *path, int reason)
{
    fprintf(stderr, "host: cannot read %s: %s\n", path, strerror(reason));
    return STATUS_UNUSABLE;
}

/* Reads a file, or as much of its front as there is room for. Nothing of it is judged here: the monitor takes any bytes. */
static int load(const char *path, struct image *image)
{
    FILE *file = fopen(path, "rb");
    int failed, reason;
    if (file == NULL) {
        return unreadable(path, errno);
    }
    image->length = fread(image->bytes, 1, sizeof image->bytes, file);
    /* A folder can be opened and not read. The reason is kept here, since fclose may change it. */
    failed = ferror(file);
    reason = errno;
    fclose(file);
    return failed ? unreadable(path, reason) : 0;
}

/* ---- calls */

/*
 * Runs turns. The monitor reads one buffer and writes another, and writes nothing where it refuses: the image before the
 * call is whole whatever happens, and a host that goes on from `after` does so only once it has a 0.
 */
static int run(const struct image *before, uint64_t turns, struct image *after, uint64_t *busy)
{
    const uint8_t number = rithennaw_turns(before->bytes, before->length, turns, after->bytes, sizeof after->bytes,
                                           &after->length, busy);
    return number == RITHENNAW_ACCEPTED ? 0 : refused("rithennaw_turns", number);
}

/* A label as who it stands for: the owners whose bits it has. */
static void print_label(uint32_t label)
{
    const char *separator = "";
    unsigned owner;
    if (label == 0) {
        printf("the public");
    } else if (label == RITHENNAW_OBSERVER_MAX) {
        printf("the host");
    } else {
        for (owner = 0; owner < 4; owner++) {
            if (((label >> owner) & 1) != 0) {
                printf("%sowner %u", separator, owner);
                separator = ", ";
            }
        }
    }
}

/*
 * Shows one observer's sheet, and the length of its view. These two are what an observer may be given. A host that serves
 * several must keep the rest to itself: the image, its length, the busy count and the time that a call took.
 */
static int show_sheet(const struct image *image, uint32_t observer)
{
    uint8_t view[RITHENNAW_IMAGE_MAX];
    uint8_t sheet[RITHENNAW_SHEET_MAX];
    size_t view_length, sheet_length;
    uint8_t number = rithennaw_view(image->bytes, image->length, observer, view, sizeof view, &view_length);
    if (number != RITHENNAW_ACCEPTED) {
        return refused("rithennaw_view", number);
    }
    number = rithennaw_sheet(image->bytes, image->length, observer, sheet, sizeof sheet, &sheet_length);
    if (number != RITHENNAW_ACCEPTED) {
        return refused("rithennaw_sheet", number);
    }
    printf("\nobserver %" PRIu32 " (", observer);
    print_label(observer);
    printf("), view of %zu bytes:\n", view_length);
    fwrite(sheet, 1, sheet_length, stdout);
    return 0;
}

/* ---- the command line */

/* As many observers as there are labels. */
enum { OBSERVERS_MAX = RITHENNAW_OBSERVER_MAX + 1 };

struct request {
    const char *path;
    uint64_t turns;
    uint32_t observers[OBSERVERS_MAX];
    size_t observer_count;
};

/* Shows the sheet of each observer asked for, and stops at the first refusal. */
static int show_sheets(const struct image *image, const struct request *request)
{
    size_t i;
    int status = 0;
    for (i = 0; status == 0 && i < request->observer_count; i++) {
        status = show_sheet(image, request->observers[i]);
    }
    return status;
}

/*
 * Reads a number of decimal digits alone, at most `most` (9 or more). strtoull would take blanks and signs too, and -1 as
 * the largest number. Whether a number is too large for the monitor is not judged here: it says so itself.
 */
static int parse_number(const char *text, uint64_t most, uint64_t *value)
{
    *value = 0;
    if (*text == '\0') {
        return 0;
    }
    for (; *text >= '0' && *text <= '9'; text++) {
        const unsigned digit = (unsigned)(*text - '0');
        if (*value > (most - digit) / 10) {
            return 0;
        }
        *value = 10 * *value + digit;
    }
    return *text == '\0';
}

/* Reads the observers, as numbers as wide as the call takes them, so that none is cut off to a label that exists. */
static int parse_observers(int count, char **texts, struct request *request)
{
    static const uint32_t usual[] = {0, 1, 2, 4, 8, RITHENNAW_OBSERVER_MAX};
    uint64_t value;
    int i;
    if (count == 0) {
        memcpy(request->observers, usual, sizeof usual);
        request->observer_count = sizeof usual / sizeof usual[0];
        return 1;
    }
    if (count > OBSERVERS_MAX) {
        return 0;
    }
    for (i = 0; i < count; i++) {
        if (!parse_number(texts[i], UINT32_MAX, &value)) {
            return 0;
        }
        request->observers[i] = (uint32_t)value;
    }
    request->observer_count = (size_t)count;
    return 1;
}

static int parse_arguments(int argc, char **argv, struct request *request)
{
    if (argc < 3 || !parse_number(argv[2], UINT64_MAX, &request->turns)
        || !parse_observers(argc - 3, argv + 3, request)) {
        fprintf(stderr, "usage: host IMAGE TURNS [OBSERVER...]\n"
                        "TURNS and each OBSERVER, at most %d of them, are decimal numbers of 64 and 32 bits\n",
                OBSERVERS_MAX);
        return STATUS_UNUSABLE;
    }
    request->path = argv[1];
    return 0;
}

/* Output that was not written, to a full disk for instance, is a failure even where every call was accepted. */
static int finish(int status)
{
    if (fflush(stdout) != 0 || ferror(stdout)) {
        fprintf(stderr, "host: cannot write the output: %s\n", strerror(errno));
        return STATUS_UNUSABLE;
    }
    return status;
}

int main(int argc, char **argv)
{
    struct request request;
    struct image before, after;
    uint64_t busy;
    int status = parse_arguments(argc, argv, &request);
    if (status == 0) {
        status = load(request.path, &before);
    }
    /* The turns come ahead of the first line, so that nothing is shown of an image or a turn count that is refused. */
    if (status == 0) {
        status = run(&before, request.turns, &after, &busy);
    }
    if (status == 0) {
        printf("before\n");
        status = show_sheets(&before, &request);
    }
    if (status == 0) {
        printf("\nafter (turns: %" PRIu64 ", busy: %" PRIu64 ")\n", request.turns, busy);
        status = show_sheets(&after, &request);
    }
    return finish(status);
}
