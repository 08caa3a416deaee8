/*
 * disk.c: a disk that fails, for tests/loop/run, which preloads it (LD_PRELOAD) into a host. It stands in for those calls of
 * the C library that change files: opening one to write, write, fsync and rename. It counts them, and ahead of the one whose
 * number is in DISK_CALL it does what DISK_FATE says:
 *
 *     killed      the process is killed, and the machine goes on: what was written is there
 *     cut         power is cut: files that were written and not synced are empty, and what was renamed is renamed
 *     cut:NAME    the same, but renames to NAME in folders that were not synced are undone
 *     error       the call fails, as on a disk that is full or broken
 *
 * The fate `slow` needs no number: each second write or fsync is interrupted by a signal, and a write takes 100 bytes at
 * most. DISK_UNSYNCED names a file that another program has written and not synced.
 *
 * Where a run ends and power is not cut, the machine still has renames that the disk does not. DISK_RENAMED names a file: if
 * the last rename to it was not synced, the file that had the name before stays beside it, with `.former` behind the name,
 * empty if there was none. The next run takes that up, and by its power cut the rename may be undone.
 *
 * fsync here only notes that a file is safe, since a real one takes long. So it is not shown that a real disk keeps what was
 * synced. Nor is a disk tried that keeps a part of what was not.
 */
#define _GNU_SOURCE /* open64, syscall */

#include <errno.h>
#include <fcntl.h>
#include <limits.h>
#include <signal.h>
#include <stdio.h>
#include <stdlib.h>
#include <string.h>
#include <sys/stat.h>
#include <sys/syscall.h>
#include <unistd.h>

/* ---- what is not safe yet */

/*
 * Either a file that was written, or a rename: the folder, the name, and the file that had the name before, -1 if none. It
 * is safe once `on`, the file or the folder, is synced. The handles are the note's own: a close or a rename leaves them.
 */
struct note {
    int on;
    char name[64];
    int former;
};

static struct note notes[64];
static size_t note_count;

static void add_note(int on, const char *name, int former)
{
    struct note *note = &notes[note_count++];
    if (note_count == sizeof notes / sizeof notes[0] || strlen(name) >= sizeof note->name) {
        fprintf(stderr, "disk.c: more is not synced than there is room for, or a name is too long\n");
        abort();
    }
    note->on = dup(on);
    strcpy(note->name, name);
    note->former = former;
}

static int same_file(int one, int other)
{
    struct stat a, b;
    return fstat(one, &a) == 0 && fstat(other, &b) == 0 && a.st_dev == b.st_dev && a.st_ino == b.st_ino;
}

static void remove_notes(int on)
{
    size_t i, kept = 0;
    for (i = 0; i < note_count; i++) {
        if (same_file(notes[i].on, on)) {
            close(notes[i].on);
            close(notes[i].former);
        } else {
            notes[kept++] = notes[i];
        }
    }
    note_count = kept;
}

/* ---- power is cut */

static int open_raw(int folder, const char *path, int flags)
{
    return (int)syscall(SYS_openat, folder, path, flags, 0666);
}

/* Writes a copy of the file that had the name before a rename; an empty file if there was none. */
static void copy_former(const struct note *note, int folder, const char *path)
{
    char bytes[16384];
    const ssize_t length = note->former < 0 ? 0 : pread(note->former, bytes, sizeof bytes, 0);
    const int file = open_raw(folder, path, O_WRONLY | O_CREAT);
    if (length < 0 || syscall(SYS_write, file, bytes, length) != length) {
        abort();
    }
    close(file);
}

/* Gives a name back to the file that had it. */
static void undo_rename(const struct note *note)
{
    unlinkat(note->on, note->name, 0);
    if (note->former >= 0) {
        copy_former(note, note->on, note->name);
    }
}

static void lose_notes(const char *name)
{
    size_t i;
    for (i = 0; i < note_count; i++) {
        if (notes[i].name[0] == '\0' && ftruncate(notes[i].on, 0) != 0) {
            abort();
        }
    }
    for (i = note_count; i > 0; i--) {
        if (notes[i - 1].name[0] != '\0' && strcmp(notes[i - 1].name, name) == 0) {
            undo_rename(&notes[i - 1]);
        }
    }
}

/* ---- the settings, and what a run hands to the next */

static const char *setting(const char *name)
{
    const char *value = getenv(name);
    return value == NULL ? "" : value;
}

/* Opens the folder that a path names a file in, and tells where the file's name begins. */
static int open_folder_of(const char *path, const char **name)
{
    char folder[PATH_MAX];
    snprintf(folder, sizeof folder, "%s", path);
    *strrchr(folder, '/') = '\0';
    *name = strrchr(path, '/') + 1;
    return open_raw(AT_FDCWD, folder, O_RDONLY | O_DIRECTORY);
}

static const char *left_path(void)
{
    static char path[PATH_MAX];
    snprintf(path, sizeof path, "%s.former", setting("DISK_RENAMED"));
    return path;
}

/* Leaves what had the name in DISK_RENAMED when it was last synced: that is in the first note of the name. */
__attribute__((destructor)) static void leave_former(void)
{
    const char *slash = strrchr(setting("DISK_RENAMED"), '/');
    size_t i;
    for (i = 0; slash != NULL && i < note_count; i++) {
        if (strcmp(notes[i].name, slash + 1) == 0) {
            copy_former(&notes[i], AT_FDCWD, left_path());
            return;
        }
    }
}

/* Takes up what the run before has left. */
static void take_former(void)
{
    const int former = open_raw(AT_FDCWD, left_path(), O_RDONLY);
    const char *name;
    struct stat facts;
    int folder;
    if (former >= 0 && fstat(former, &facts) == 0) {
        folder = open_folder_of(setting("DISK_RENAMED"), &name);
        add_note(folder, name, facts.st_size > 0 ? former : -1);
        close(folder);
        unlink(left_path());
    }
}

/* ---- the fate of a call */

static int is_slow(void)
{
    return strcmp(setting("DISK_FATE"), "slow") == 0;
}

/* Counts a call, and tells whether it fails. */
static int fails(void)
{
    static int calls;
    const char *fate = setting("DISK_FATE");
    if (++calls != atoi(setting("DISK_CALL"))) {
        return 0;
    }
    if (strcmp(fate, "error") == 0) {
        errno = EIO;
        return 1;
    }
    if (strncmp(fate, "cut", 3) == 0) {
        lose_notes(fate[3] == ':' ? fate + 4 : "");
    } else {
        leave_former();
    }
    return kill(getpid(), SIGKILL);
}

static int interrupted(void)
{
    static int calls;
    errno = EINTR;
    return is_slow() && ++calls % 2 == 1;
}

/* ---- the calls */

static int open_counted(int folder, const char *path, int flags)
{
    return (flags & O_ACCMODE) != O_RDONLY && fails() ? -1 : open_raw(folder, path, flags);
}

int openat(int folder, const char *path, int flags, ...)
{
    return open_counted(folder, path, flags);
}

int open64(const char *path, int flags, ...)
{
    return open_counted(AT_FDCWD, path, flags);
}

ssize_t write(int file, const void *bytes, size_t length)
{
    if (file > STDERR_FILENO) {
        if (fails() || interrupted()) {
            return -1;
        }
        add_note(file, "", -1);
        length = is_slow() && length > 100 ? 100 : length;
    }
    return syscall(SYS_write, file, bytes, length);
}

int fsync(int file)
{
    if (fails() || interrupted()) {
        return -1;
    }
    remove_notes(file);
    return 0;
}

int renameat(int old_folder, const char *old, int folder, const char *name)
{
    if (fails()) {
        return -1;
    }
    add_note(folder, name, open_raw(folder, name, O_RDONLY));
    return (int)syscall(SYS_renameat, old_folder, old, folder, name);
}

int rename(const char *old, const char *path)
{
    const char *name;
    const int folder = open_folder_of(path, &name);
    const int result = renameat(AT_FDCWD, old, folder, name);
    close(folder);
    return result;
}

__attribute__((constructor)) static void note_unsynced(void)
{
    const char *path = setting("DISK_UNSYNCED");
    if (path[0] != '\0') {
        add_note(open_raw(AT_FDCWD, path, O_WRONLY), "", -1);
    }
    take_former();
}
