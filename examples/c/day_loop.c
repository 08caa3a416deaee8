/*
 * day_loop.c: a host that runs a day step by step and goes on after a power cut as if there had been none, to copy from. It
 * posts the plant's figures, runs turns, saves the image, and gives each owner its view. ISO C99 and POSIX.1-2008.
 *
 * A first run, after `make`, on the sample day:
 *
 *     gcc -std=c99 -I include examples/c/day_loop.c target/staticlib/librithennaw.a -o day_loop
 *     mkdir -m 700 day o0 o1 o2 o3
 *     cp examples/day/day.image day/start.image
 *     cp examples/day/journal day
 *     flock day ./day_loop day o0 o1 o2 o3
 *
 * After `make install` it is built by `gcc -std=c99 day_loop.c $(pkg-config --cflags --libs rithennaw) -o day_loop`.
 *
 *     flock DAY ./day_loop DAY OWNER0 OWNER1 OWNER2 OWNER3
 *
 * DAY is a folder for the host alone (`mkdir -m 700 DAY`). It has
 *
 *     start.image    the image that the day begins with
 *     journal        what is to be done, a line for each step; lines are added at the end, and what is done stays as it is
 *     saved          where the day stands: the number of lines done, a line feed, and the image after them
 *
 * OWNER0 to OWNER3 are folders, one for each owner, which the host alone writes and that owner may read: the file `view` in
 * it is the owner's view. Each has a folder, since the file is another one after each step and would not keep its rights. Let
 * each owner into its own folder and no other, by a group for instance (`chgrp OWNER o0; chmod 750 o0`): the files in it may
 * be read by whoever is let in.
 *
 * A line of the journal is any number of postings, for instance of the lab's results, and then turns, with decimal numbers:
 *
 *     turns 32
 *     post 0 1 912 post 1 2 18 turns 208
 *
 * `post SLOT LABEL VALUE` posts, `turns COUNT` runs turns. What stands behind the last line feed is not there yet. Whoever
 * adds a line first cuts that off, then writes the line whole and syncs the file; until then a power cut may lose the line.
 * If the start of a line stayed there and the same line came behind it, the two together might post twice. Lines are added
 * under the same lock (`flock DAY ...`): a run that reads meanwhile might join the start of one line to the end of another.
 *
 * The program carries out the lines that are not done, and ends; it is started again when there are more. Only one may run on
 * a DAY at a time, since two would write the same file `new`: flock sees to that. The next day is another DAY, whose
 * start.image is `tail -n +2 DAY/saved`.
 *
 * It may end at any moment, by a power cut too. The next start goes on as if it had not, and no posting is lost or made
 * twice, because
 *
 * - the number of lines done and the image are one file, so that a single rename moves both (`save`, `replace`);
 * - a line is done whole or not at all: it is carried out in memory, and one save is the end of it;
 * - no owner is given a view of what the disk does not have. After a power cut the step is taken anew; its line may have been
 *   changed before it is run again, and the owner would have seen a step that did not happen;
 * - each start syncs what is saved and gives the views of it, since the run before may have ended between the two;
 * - a line is acted on only after the disk has it. Otherwise a power cut could take a line out of the journal that counts as
 *   done, and the next one that is added would pass for it.
 *
 * What the host is told of messages that were dropped is not part of that: see `tell_dropped`.
 *
 * All owners see when views are written, and how many turns were run. So neither may depend on figures that one of them must
 * not know: let a clock decide on lines and turns. A posting waits for the next line, and does not get one of its own. How
 * long a step takes depends on hidden tasks, and the times of the files show it. A host that must hide this gives the views
 * at fixed moments: it waits between `save` and `give_views` for the next one, and sets the files' times to it. That a line
 * stops the day is seen by all too; so check a line before it is added.
 *
 * Exit status: 0; 1 where the monitor refuses a call; 2 where the arguments or a file's text are wrong, or a file cannot be
 * read or written. A line that is refused or cannot be read stops the day ahead of it, until somebody corrects it and starts
 * the program again. It is not passed over, since the turns behind it were to run with its figures and cannot be taken back.
 * A view that cannot be written stops the day too, when the other owners have theirs.
 */
#define _POSIX_C_SOURCE 200809L /* fsync, getline, openat, renameat */

#include <errno.h>
#include <fcntl.h>
#include <inttypes.h>
#include <stdio.h>
#include <stdlib.h>
#include <string.h>
#include <sys/stat.h>
#include <sys/types.h>
#include <unistd.h>

#include <rithennaw.h>

enum { STATUS_REFUSED = 1, STATUS_UNUSABLE = 2 };

/* The names in the folders. NEW is the file that is written and then renamed. */
#define START "start.image"
#define JOURNAL "journal"
#define SAVED "saved"
#define VIEW "view"
#define NEW "new"

/* Who may read a file: the host alone, or whoever the owner's folder lets in. The umask may take away from it. */
enum { FOR_HOST = S_IRUSR | S_IWUSR, FOR_OWNER = FOR_HOST | S_IRGRP | S_IROTH };

enum { OWNERS = 4 };

/* Room for the number of lines done, 20 digits and the line feed. */
enum { HEAD_MAX = 21 };

/*
 * Room for the longest file `saved`, and one byte more: by that byte behind its image the monitor refuses a file that is
 * longer (11).
 */
struct image {
    uint8_t bytes[HEAD_MAX + RITHENNAW_IMAGE_MAX + 1];
    size_t length;
};

struct folder {
    const char *path;
    int handle;
};

struct day {
    struct folder own;
    struct folder owners[OWNERS];
    uint64_t lines_done;
    struct image image;
};

/* ---- what the host is told, on standard error */

static int refused(const char *what, uint8_t number)
{
    fprintf(stderr, "day_loop: %s refused with %u: %s\n", what, (unsigned)number, rithennaw_refusal_text(number));
    return STATUS_REFUSED;
}

/* That a file could not be read or written, by the reason in errno. */
static int cannot(const char *act, const struct folder *folder, const char *name)
{
    fprintf(stderr, "day_loop: cannot %s %s/%s: %s\n", act, folder->path, name, strerror(errno));
    return STATUS_UNUSABLE;
}

static int wrong(const struct folder *folder, const char *name, const char *what)
{
    fprintf(stderr, "day_loop: %s/%s: %s\n", folder->path, name, what);
    return STATUS_UNUSABLE;
}

/* ---- writing files so that a power cut leaves the former one or the new one */

/* A call may write a part only, or nothing where a signal came in between. */
static int write_all(int file, const uint8_t *bytes, size_t length)
{
    while (length > 0) {
        const ssize_t written = write(file, bytes, length);
        if (written >= 0) {
            bytes += written;
            length -= (size_t)written;
        } else if (errno != EINTR) {
            return -1;
        }
    }
    return 0;
}

/* Waits until the disk has a file, or the names in a folder. */
static int sync_all(int file)
{
    while (fsync(file) != 0) {
        if (errno != EINTR) {
            return -1;
        }
    }
    return 0;
}

/* Writes the file NEW, and waits until the disk has it. */
static int write_new(const struct folder *folder, mode_t mode, const uint8_t *bytes, size_t length)
{
    const int file = openat(folder->handle, NEW, O_WRONLY | O_CREAT | O_TRUNC, mode);
    if (file < 0) {
        return -1;
    }
    if (write_all(file, bytes, length) != 0 || sync_all(file) != 0) {
        const int reason = errno; /* close may change it */
        close(file);
        errno = reason;
        return -1;
    }
    return close(file);
}

/*
 * Puts a file in the place of the former one. The disk has its bytes before the name stands for them: since a disk may write
 * names first, a power cut could leave the name with an empty file. And the disk has the name before this returns, so that
 * what comes next may rest on it. A file NEW that another run left is written over.
 */
static int replace(const struct folder *folder, const char *name, mode_t mode, const uint8_t *bytes, size_t length)
{
    if (write_new(folder, mode, bytes, length) != 0 || renameat(folder->handle, NEW, folder->handle, name) != 0
        || sync_all(folder->handle) != 0) {
        return cannot("write", folder, name);
    }
    return 0;
}

/* ---- reading */

static FILE *open_file(const struct folder *folder, const char *name)
{
    const int file = openat(folder->handle, name, O_RDONLY);
    return file < 0 ? NULL : fdopen(file, "rb");
}

/* Reads a file, or as much of its front as there is room for. Returns 0, or -1 with the reason in errno. */
static int load(const struct folder *folder, const char *name, struct image *image)
{
    FILE *file = open_file(folder, name);
    int failed, reason;
    if (file == NULL) {
        return -1;
    }
    image->length = fread(image->bytes, 1, sizeof image->bytes, file);
    failed = ferror(file);
    reason = errno;
    fclose(file);
    errno = reason;
    return failed ? -1 : 0;
}

/* Reads a number of decimal digits alone, at most `most` (9 or more). */
static int parse_number(const char *text, uint64_t most, uint64_t *value)
{
    *value = 0;
    if (*text == '\0') {
        return 0;
    }
    for (; *text >= '0' && *text <= '9'; text++) {
        const unsigned digit = (unsigned)(*text - '0');
        if (*value > (most - digit) / 10) {
            return 0;
        }
        *value = 10 * *value + digit;
    }
    return *text == '\0';
}

/* ---- where the day stands */

static int save(const struct day *day)
{
    uint8_t bytes[sizeof day->image.bytes];
    const int head = snprintf((char *)bytes, sizeof bytes, "%" PRIu64 "\n", day->lines_done);
    memcpy(bytes + head, day->image.bytes, day->image.length);
    return replace(&day->own, SAVED, FOR_HOST, bytes, (size_t)head + day->image.length);
}

/* An image that is refused is not begun with, and not gone on with. */
static int check(const char *name, const struct image *image)
{
    const uint8_t number = rithennaw_check(image->bytes, image->length);
    return number == RITHENNAW_ACCEPTED ? 0 : refused(name, number);
}

/* Begins the day. It is saved before a view is given, so that another start.image later changes nothing. */
static int begin(struct day *day)
{
    int status;
    if (load(&day->own, START, &day->image) != 0) {
        return cannot("read", &day->own, START);
    }
    day->lines_done = 0;
    status = check(START, &day->image);
    return status == 0 ? save(day) : status;
}

/* Takes the number of lines done off the front of what was saved. */
static int split(struct day *day)
{
    struct image *image = &day->image;
    char *head = (char *)image->bytes;
    char *end = memchr(head, '\n', image->length);
    if (end == NULL) {
        return wrong(&day->own, SAVED, "there is no line with the number of lines done");
    }
    *end = '\0';
    if (strlen(head) != (size_t)(end - head) || !parse_number(head, UINT64_MAX, &day->lines_done)) {
        return wrong(&day->own, SAVED, "the first line is not the number of lines done");
    }
    image->length -= (size_t)(end + 1 - head);
    memmove(head, end + 1, image->length);
    return 0;
}

/*
 * Goes on where the day stands. The run before may have ended when `saved` had its name and the disk did not have that: it is
 * synced, as it would be at the end of a save. A file `saved` that is wrong was not left by a power cut, and is not passed
 * over: the owners have seen what was in it.
 */
static int resume(struct day *day)
{
    int status;
    if (load(&day->own, SAVED, &day->image) != 0) {
        return errno == ENOENT ? begin(day) : cannot("read", &day->own, SAVED);
    }
    if (sync_all(day->own.handle) != 0) {
        return cannot("sync", &day->own, SAVED);
    }
    status = split(day);
    return status == 0 ? check(SAVED, &day->image) : status;
}

static int give_view(const struct day *day, int owner)
{
    uint8_t view[RITHENNAW_IMAGE_MAX];
    size_t length;
    const uint8_t number = rithennaw_view(day->image.bytes, day->image.length, (uint32_t)1 << owner, view, sizeof view,
                                          &length);
    return number == RITHENNAW_ACCEPTED ? replace(&day->owners[owner], VIEW, FOR_OWNER, view, length)
                                        : refused("view", number);
}

/* Gives each owner its view, which is all that an owner may be given. Where one cannot be written the others are. */
static int give_views(const struct day *day)
{
    int owner, first_fault = 0;
    for (owner = 0; owner < OWNERS; owner++) {
        const int status = give_view(day, owner);
        first_fault = first_fault == 0 ? status : first_fault;
    }
    return first_fault;
}

/* ---- a step: a line of the journal */

/* The next word of a line, which is cut off there; empty at the line's end. */
static char *next_word(char **rest)
{
    char *word = *rest + strspn(*rest, " ");
    *rest = word + strcspn(word, " ");
    if (**rest != '\0') {
        *(*rest)++ = '\0';
    }
    return word;
}

static int no_step(void)
{
    fprintf(stderr, "day_loop: a step is any number of `post SLOT LABEL VALUE` and then `turns COUNT`\n");
    return STATUS_UNUSABLE;
}

/*
 * Tells the host, and nobody else, that a message was dropped: an owner would learn of mail and tasks that are hidden from it.
 * It is told before the step is saved, and where it cannot be written nothing of the line is done. So the host may be told
 * twice, where the program ended before the save; and what the terminal or the file did not keep over a power cut is lost. A
 * run of start.image and the journal in another DAY tells it again.
 */
static int tell_dropped(uint64_t line, uint64_t slot)
{
    const char *text = "day_loop: line %" PRIu64 ": the message to slot %" PRIu64 " was dropped\n";
    if (fprintf(stderr, text, line, slot) < 0 || fflush(stderr) != 0) {
        fprintf(stderr, "day_loop: cannot write to standard error: %s\n", strerror(errno));
        return STATUS_UNUSABLE;
    }
    return 0;
}

/* Posts what the next three words say, numbers as wide as the call takes them. A message that is dropped is no fault. */
static int post(uint64_t line, char **rest, struct image *image)
{
    uint64_t words[3];
    struct image after;
    uint8_t number, delivered;
    size_t i;
    for (i = 0; i < 3; i++) {
        if (!parse_number(next_word(rest), UINT32_MAX, &words[i])) {
            return no_step();
        }
    }
    number = rithennaw_post(image->bytes, image->length, (uint32_t)words[0], (uint32_t)words[1], (uint32_t)words[2],
                            after.bytes, sizeof after.bytes, &after.length, &delivered);
    if (number != RITHENNAW_ACCEPTED) {
        return refused("post", number);
    }
    *image = after;
    return delivered ? 0 : tell_dropped(line, words[0]);
}

/* Runs as many turns as the next word says, which is the line's last. The busy count is for the host alone, and not kept. */
static int run(char **rest, struct image *image)
{
    uint64_t count, busy;
    struct image after;
    uint8_t number;
    if (!parse_number(next_word(rest), UINT64_MAX, &count) || *next_word(rest) != '\0') {
        return no_step();
    }
    number = rithennaw_turns(image->bytes, image->length, count, after.bytes, sizeof after.bytes, &after.length, &busy);
    if (number != RITHENNAW_ACCEPTED) {
        return refused("turns", number);
    }
    *image = after;
    return 0;
}

/* Carries out a line on an image in memory: the postings, then the turns. */
static int carry_out(uint64_t line, char *text, struct image *image)
{
    for (;;) {
        const char *word = next_word(&text);
        int status;
        if (strcmp(word, "turns") == 0) {
            return run(&text, image);
        }
        status = strcmp(word, "post") == 0 ? post(line, &text, image) : no_step();
        if (status != 0) {
            return status;
        }
    }
}

/* Takes a step: carries it out, saves it, and then gives the views. */
static int take_step(struct day *day, char *text)
{
    const uint64_t line = day->lines_done + 1;
    struct image after = day->image;
    int status = carry_out(line, text, &after);
    if (status != 0) {
        fprintf(stderr, "day_loop: stopped at line %" PRIu64 " of the journal; nothing of it was done\n", line);
        return status;
    }
    day->image = after;
    day->lines_done = line;
    status = save(day);
    return status == 0 ? give_views(day) : status;
}

/* ---- the journal */

struct journal {
    FILE *file;
    char *line;
    size_t room;
};

/* Reads the next line that is whole, without its line feed. Returns 0 where there is none. */
static int next_line(struct journal *journal)
{
    const ssize_t length = getline(&journal->line, &journal->room, journal->file);
    char *end;
    if (length <= 0 || journal->line[length - 1] != '\n') {
        return 0;
    }
    journal->line[length - 1] = '\0';
    /* A 0 byte would pass for the line's end, and hide what is behind it. As a `?` it is in no word that is taken. */
    while ((end = journal->line + strlen(journal->line)) < journal->line + length - 1) {
        *end = '?';
    }
    return 1;
}

/* Takes a step for each line behind those that are done. */
static int take_steps(struct day *day, struct journal *journal)
{
    uint64_t line = 0;
    int status = 0;
    while (status == 0 && next_line(journal)) {
        line++;
        if (line > day->lines_done) {
            /* Linux syncs a file also by a handle that only reads. */
            status = sync_all(fileno(journal->file)) != 0 ? cannot("sync", &day->own, JOURNAL)
                                                          : take_step(day, journal->line);
        }
    }
    if (status == 0 && !feof(journal->file)) {
        return cannot("read", &day->own, JOURNAL);
    }
    if (status == 0 && line < day->lines_done) {
        return wrong(&day->own, JOURNAL, "there are fewer lines than are done");
    }
    return status;
}

static int go_on(struct day *day)
{
    struct journal journal = {NULL, NULL, 0};
    int status;
    journal.file = open_file(&day->own, JOURNAL);
    if (journal.file == NULL) {
        return cannot("read", &day->own, JOURNAL);
    }
    status = take_steps(day, &journal);
    free(journal.line);
    fclose(journal.file);
    return status;
}

/* ---- the command line */

/* Opens a folder, in which files are then named, and whose names can be synced. It stays open until the program ends. */
static int open_folder(const char *path, struct folder *folder)
{
    folder->path = path;
    folder->handle = open(path, O_RDONLY | O_DIRECTORY);
    if (folder->handle < 0) {
        fprintf(stderr, "day_loop: cannot open the folder %s: %s\n", path, strerror(errno));
        return STATUS_UNUSABLE;
    }
    return 0;
}

static int open_folders(int argc, char **argv, struct day *day)
{
    int owner, status;
    if (argc != 2 + OWNERS) {
        fprintf(stderr, "usage: day_loop DAY OWNER0 OWNER1 OWNER2 OWNER3\n");
        return STATUS_UNUSABLE;
    }
    status = open_folder(argv[1], &day->own);
    for (owner = 0; status == 0 && owner < OWNERS; owner++) {
        status = open_folder(argv[2 + owner], &day->owners[owner]);
    }
    return status;
}

int main(int argc, char **argv)
{
    struct day day;
    int status = open_folders(argc, argv, &day);
    if (status == 0) {
        status = resume(&day);
    }
    if (status == 0) {
        status = give_views(&day);
    }
    if (status == 0) {
        status = go_on(&day);
    }
    return status;
}
