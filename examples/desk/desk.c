/*
 * desk.c: an owner's desk, to copy from. It takes the view that the host sent, runs it ahead and shows where the host's run
 * will stand. ISO C99 and POSIX.1-2008.
 *
 *     gcc -std=c99 -I include examples/desk/desk.c target/staticlib/librithennaw.a -o desk
 *     ./desk VIEW LABEL [--output FILE] [post SLOT LABEL VALUE | turns COUNT]...
 *
 * After `make install` it is built by `gcc -std=c99 desk.c $(pkg-config --cflags --libs rithennaw) -o desk`.
 *
 * VIEW is the file that the host sent; examples/c/day_loop.c writes it as OWNER/view. LABEL is the label that the host made it
 * for, an owner's own being 1, 2, 4 or 8. The rest are the steps, in order, in the words of day_loop's journal. That file is
 * for the host alone: it is the host who tells an owner how many turns were run and which posts the owner may see. The desk
 * prints the sheet of the view as it is now, takes the steps in memory, and prints the sheet of the view after them:
 *
 *     ./desk o0/view 1 turns 17 post 0 1 912 turns 223
 *
 * A step runs at most 1,000,000 turns, and there may be any number of steps.
 *
 * What it works out is the view of the host's run, byte by byte, if the steps are the host's: as many turns, and the posts
 * whose labels flow to LABEL, delivered or not, each after as many turns and in the same order. How the host divides the turns
 * between its calls does not matter, nor what else it posts, nor what hidden tasks do. With other steps it is the view of the
 * run that the host would make by those.
 *
 * - The view is taken again at the end. A task that rises above LABEL goes on here without the hidden figures that it would
 *   receive with the host: what the desk's image has of it says nothing. Only the view for LABEL is what the host's run will
 *   show.
 * - Whether a post was delivered is not told. Here every slot of a hidden task is unused, and the host may have delivered
 *   there.
 * - LABEL must not have an owner that the view was not made for. That cannot be told from the bytes, since what is hidden is
 *   written as unused. Fewer owners are fine: the view for one label of the view for another is that for the owners in both.
 *
 * With --output the view after the steps is written to FILE, with rights for its user alone, since it has the owner's figures.
 * FILE may be VIEW: a desk goes on from what a desk wrote as from what the host sent. It is written once every step was
 * accepted and before anything is printed, as FILE.PID.new, which is then renamed: a former FILE stays as it was until the new
 * one is whole, and no other file is lost. A link, a folder or a device is not replaced.
 *
 * Exit status: 0; 1 where the monitor refuses a call, or VIEW itself; 2 where the arguments are wrong, VIEW cannot be read, or
 * FILE or the output cannot be written. Where something is refused nothing is printed, and FILE is not written.
 */
#define _POSIX_C_SOURCE 200809L /* PATH_MAX, SIGPIPE, fdopen, fileno, fsync, getpid, lstat, open, unlink */

#include <errno.h>
#include <fcntl.h>
#include <inttypes.h>
#include <limits.h>
#include <signal.h>
#include <stdio.h>
#include <string.h>
#include <sys/stat.h>
#include <unistd.h>

#include <rithennaw.h>

enum { STATUS_REFUSED = 1, STATUS_UNUSABLE = 2 };

/* ---- what the owner is told, on standard error */

static int refused(const char *what, uint8_t number)
{
    fprintf(stderr, "desk: %s refused with %u: %s\n", what, (unsigned)number, rithennaw_refusal_text(number));
    return STATUS_REFUSED;
}

/* That a file or the output could not be read or written, by the reason in errno. */
static int cannot(const char *act, const char *what)
{
    fprintf(stderr, "desk: cannot %s %s: %s\n", act, what, strerror(errno));
    return STATUS_UNUSABLE;
}

static int usage(void)
{
    fprintf(stderr, "usage: desk VIEW LABEL [--output FILE] [post SLOT LABEL VALUE | turns COUNT]...\n"
                    "COUNT is a decimal number of 64 bits, and LABEL, SLOT and VALUE are decimal numbers of 32 bits\n");
    return STATUS_UNUSABLE;
}

/* ---- the command line */

/* Reads a number of decimal digits alone, at most `most` (9 or more). Whether the monitor takes it is not judged here. */
static int parse_number(const char *text, uint64_t most, uint64_t *value)
{
    *value = 0;
    if (*text == '\0') {
        return 0;
    }
    for (; *text >= '0' && *text <= '9'; text++) {
        const unsigned digit = (unsigned)(*text - '0');
        if (*value > (most - digit) / 10) {
            return 0;
        }
        *value = 10 * *value + digit;
    }
    return *text == '\0';
}

enum { POST_NUMBERS = 3, TURNS_NUMBERS = 1 };

/* A post with its slot, label and value, or turns with their count. */
struct step {
    int is_post;
    uint64_t numbers[POST_NUMBERS];
};

/* Reads the step at the front of the words, which end with NULL, and moves them behind it. Returns 0 where there is none. */
static int next_step(char ***words, struct step *step)
{
    char **word = *words;
    uint64_t most;
    size_t count, i;
    if (*word == NULL) {
        return 0;
    }
    step->is_post = strcmp(*word, "post") == 0;
    if (!step->is_post && strcmp(*word, "turns") != 0) {
        return 0;
    }
    /* Numbers as wide as the call takes them, so that none is cut off to one that is accepted. */
    count = step->is_post ? POST_NUMBERS : TURNS_NUMBERS;
    most = step->is_post ? UINT32_MAX : UINT64_MAX;
    for (i = 0; i < count; i++) {
        word++;
        if (*word == NULL || !parse_number(*word, most, &step->numbers[i])) {
            return 0;
        }
    }
    *words = word + 1;
    return 1;
}

struct request {
    const char *view;
    uint32_t label;
    const char *output; /* NULL where no file is asked for */
    char **steps;       /* their words, which end with NULL */
};

/* Reads all words ahead of the first call, the steps' too: these are read once more where they are taken. */
static int parse_arguments(int argc, char **argv, struct request *request)
{
    struct step step;
    uint64_t label;
    char **words;
    if (argc < 3 || !parse_number(argv[2], UINT32_MAX, &label)) {
        return usage();
    }
    request->view = argv[1];
    request->label = (uint32_t)label;
    request->output = NULL;
    request->steps = argv + 3;
    if (argc > 4 && strcmp(argv[3], "--output") == 0) {
        request->output = argv[4];
        request->steps = argv + 5;
    }
    words = request->steps;
    while (next_step(&words, &step)) {
    }
    return *words == NULL ? 0 : usage();
}

/* ---- files */

/*
 * Room for the longest image and one byte more: by that byte behind slot 15 the monitor refuses a file that is longer (11), as
 * it would the whole file.
 */
struct image {
    uint8_t bytes[RITHENNAW_IMAGE_MAX + 1];
    size_t length;
};

/* Reads a file, or as much of its front as there is room for, and has the monitor check it. */
static int load(const char *path, struct image *image)
{
    FILE *file = fopen(path, "rb");
    uint8_t number;
    int failed, reason;
    if (file == NULL) {
        return cannot("read", path);
    }
    image->length = fread(image->bytes, 1, sizeof image->bytes, file);
    failed = ferror(file);
    reason = errno; /* fclose may change it */
    fclose(file);
    if (failed) {
        errno = reason;
        return cannot("read", path);
    }
    number = rithennaw_check(image->bytes, image->length);
    return number == RITHENNAW_ACCEPTED ? 0 : refused(path, number);
}

/* Removes what was made of a file that could not be written, and keeps the reason in errno. */
static void discard(const char *path)
{
    const int reason = errno;
    unlink(path);
    errno = reason;
}

/* Makes a file, with rights for its user alone. One that is there already, or a link, is left alone: there is none then. */
static FILE *make_file(const char *path)
{
    const int handle = open(path, O_WRONLY | O_CREAT | O_EXCL, S_IRUSR | S_IWUSR);
    FILE *file;
    if (handle < 0) {
        return NULL;
    }
    file = fdopen(handle, "wb");
    if (file == NULL) {
        discard(path);
        close(handle);
    }
    return file;
}

/* Writes an image, waits until the disk has it, and closes the file. Returns 0, or -1 with the reason in errno. */
static int fill(FILE *file, const struct image *image)
{
    const int failed = fwrite(image->bytes, 1, image->length, file) != image->length || fflush(file) != 0
                       || fsync(fileno(file)) != 0;
    const int reason = errno; /* fclose may change it */
    fclose(file);
    errno = reason;
    return failed ? -1 : 0;
}

/*
 * Puts a file in the place of the former one. The disk has its bytes before the name stands for them, so that a power cut
 * leaves the one or the other. Where that fails, what was written is removed.
 */
static int replace(const char *path, const struct image *image)
{
    char new_path[PATH_MAX];
    struct stat former;
    FILE *file;
    /* A rename would put a file in the place of a link or a device too, such as /dev/null. */
    if (lstat(path, &former) == 0 && !S_ISREG(former.st_mode)) {
        fprintf(stderr, "desk: cannot write %s: It is no plain file\n", path);
        return STATUS_UNUSABLE;
    }
    if (snprintf(new_path, sizeof new_path, "%s.%ld.new", path, (long)getpid()) >= (int)sizeof new_path) {
        errno = ENAMETOOLONG;
        return cannot("write", path);
    }
    file = make_file(new_path);
    if (file == NULL) {
        return cannot("write", path);
    }
    if (fill(file, image) != 0 || rename(new_path, path) != 0) {
        discard(new_path);
        return cannot("write", path);
    }
    return 0;
}

/* ---- the steps */

static int take_view(const struct image *image, uint32_t label, struct image *view)
{
    const uint8_t number = rithennaw_view(image->bytes, image->length, label, view->bytes, sizeof view->bytes,
                                          &view->length);
    return number == RITHENNAW_ACCEPTED ? 0 : refused("view", number);
}

/* Posts. Whether the message was delivered is not told: see the head of this file. */
static int post(const struct step *step, const struct image *image, struct image *after)
{
    uint8_t delivered;
    const uint8_t number = rithennaw_post(image->bytes, image->length, (uint32_t)step->numbers[0],
                                          (uint32_t)step->numbers[1], (uint32_t)step->numbers[2], after->bytes,
                                          sizeof after->bytes, &after->length, &delivered);
    return number == RITHENNAW_ACCEPTED ? 0 : refused("post", number);
}

/* Runs turns. The busy count is not told: here it leaves out the hidden tasks' turns. */
static int run(const struct step *step, const struct image *image, struct image *after)
{
    uint64_t busy;
    const uint8_t number = rithennaw_turns(image->bytes, image->length, step->numbers[0], after->bytes,
                                           sizeof after->bytes, &after->length, &busy);
    return number == RITHENNAW_ACCEPTED ? 0 : refused("turns", number);
}

/* Takes the steps, on an image in memory, and adds up their turns. Each is at most 1,000,000 where it was accepted. */
static int take_steps(char **words, struct image *image, uint64_t *turns)
{
    struct step step;
    struct image after;
    *turns = 0;
    while (next_step(&words, &step)) {
        const int status = step.is_post ? post(&step, image, &after) : run(&step, image, &after);
        if (status != 0) {
            return status;
        }
        *image = after;
        *turns += step.is_post ? 0 : step.numbers[0];
    }
    return 0;
}

/* ---- what the owner is shown */

struct sheet {
    uint8_t text[RITHENNAW_SHEET_MAX];
    size_t length;
};

static int take_sheet(const struct image *image, uint32_t label, struct sheet *sheet)
{
    const uint8_t number = rithennaw_sheet(image->bytes, image->length, label, sheet->text, sizeof sheet->text,
                                           &sheet->length);
    return number == RITHENNAW_ACCEPTED ? 0 : refused("sheet", number);
}

static int print_sheets(const struct sheet *now, uint64_t turns, const struct sheet *then)
{
    printf("now\n");
    fwrite(now->text, 1, now->length, stdout);
    printf("after %" PRIu64 " %s\n", turns, turns == 1 ? "turn" : "turns");
    fwrite(then->text, 1, then->length, stdout);
    return fflush(stdout) != 0 || ferror(stdout) ? cannot("write", "the output") : 0;
}

/*
 * Works out the view after the steps, and gives it once nothing can be refused any more. The view is taken at the start too,
 * since VIEW may have been made for more owners: the steps run on what LABEL admits.
 */
static int work_out(const struct request *request, const struct image *sent)
{
    struct image image, view;
    struct sheet now, then;
    uint64_t turns;
    int status = take_view(sent, request->label, &image);
    if (status == 0) {
        status = take_sheet(&image, request->label, &now);
    }
    if (status == 0) {
        status = take_steps(request->steps, &image, &turns);
    }
    if (status == 0) {
        status = take_view(&image, request->label, &view);
    }
    if (status == 0) {
        status = take_sheet(&view, request->label, &then);
    }
    if (status == 0 && request->output != NULL) {
        status = replace(request->output, &view);
    }
    return status == 0 ? print_sheets(&now, turns, &then) : status;
}

int main(int argc, char **argv)
{
    struct request request;
    struct image sent;
    int status = parse_arguments(argc, argv, &request);
    /* By the signal the program would end without a word, where it is to tell that the output cannot be written. */
    signal(SIGPIPE, SIG_IGN);
    if (status == 0) {
        status = load(request.view, &sent);
    }
    return status == 0 ? work_out(&request, &sent) : status;
}
