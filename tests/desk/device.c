/* device.c: a library to preload under a desk. It records the calls that reach the desk's file and its standard
   streams, refuses chosen ones, and lets one started process open many files. It stands on names of the GNU C library.

   DESK_FILE in the environment is the path of the file. DESK_LOG is a file that gets an event for each call, in order: a
   head (struct event) and, if bytes moved from standard input, to standard output or to the file, these bytes. A failed
   write to the file has all its bytes there, because it may have changed any of them.

   DESK_REFUSE is 'KIND FIRST LAST ERROR MOST', with KIND a letter of enum kind. The calls of that kind whose numbers
   are from FIRST to LAST fail with the error number ERROR; if that is 0, they move at most MOST bytes.

   DESK_SLOW is the number of microseconds that each sync takes longer.

   DESK_OUTPUT is 'MAJOR MINOR NUMBER'. Standard output is said to be a file on a device whose two numbers are that much
   greater than those of the file's device, and with a number that is that much greater than the file's.

   DESK_SERVE is 'IMAGES RESULTS': two files. For each image, its length and its bytes, the file of DESK_FILE gets these
   bytes, and a child of this process runs the program. RESULTS gets a head (struct result), the child's output, its
   errors, its events, and the bytes of the file afterwards. */

#define _GNU_SOURCE
#include <errno.h>
#include <fcntl.h>
#include <signal.h>
#include <stdarg.h>
#include <stdbool.h>
#include <stdint.h>
#include <stdio.h>
#include <stdlib.h>
#include <string.h>
#include <sys/mman.h>
#include <sys/stat.h>
#include <sys/syscall.h>
#include <sys/wait.h>
#include <unistd.h>

enum kind {
    OPEN = 'P', LOCK = 'L', STAT = 'Q', READ = 'R', WRITE = 'W', SYNC = 'S', CUT = 'T', ADVICE = 'A', MODE = 'M',
    INPUT = 'I', OUTPUT = 'O', REPORT = 'E',
};

/* The target: the file, the empty file next to it, their folder, or a standard stream. */
enum target { NONE = 0, DESK = 'F', EXTRA = 'X', FOLDER = 'D', STREAM = 'N' };

struct event {
    char kind, target;
    uint16_t unused;
    int32_t answer; /* or the error number below 0 */
    uint64_t at;
    uint32_t asked, length; /* the bytes after this head */
};

struct result {
    int32_t status;
    uint32_t output, errors, events, file;
};

enum { FILES = 1024, HIGH = 900, SECONDS = 30 };

static const char *path, *name;
static char target_of[FILES];
static int events = -1;
static useconds_t slow;
static struct {
    bool is_said;
    unsigned major, minor;
    unsigned long number;
} output;
static struct {
    char kind;
    unsigned long first, last, made;
    int error;
    long most;
} refused;

static void put(int file, const void *bytes, size_t length) {
    for (size_t done = 0; done < length;) {
        long moved = syscall(SYS_write, file, (const char *)bytes + done, length - done);
        if (moved <= 0)
            _exit(97);
        done += (size_t)moved;
    }
}

static void note(enum kind kind, enum target target, long answer, uint64_t at, size_t asked, const void *bytes) {
    int kept = errno;
    struct event head = {(char)kind, (char)target, 0, answer < 0 ? -kept : (int32_t)answer, at, (uint32_t)asked, 0};
    if (bytes != NULL)
        head.length = answer >= 0 ? (uint32_t)answer : kind == WRITE ? (uint32_t)asked : 0;
    if (events >= 0) {
        put(events, &head, sizeof head);
        if (head.length > 0)
            put(events, bytes, head.length);
    }
    errno = kept;
}

/* Whether this call fails; if it only has to be short, that many bytes remain of it. */
static bool fails(enum kind kind, size_t *length) {
    if (refused.kind != (char)kind)
        return false;
    refused.made++;
    if (refused.made < refused.first || refused.last < refused.made)
        return false;
    if (refused.error == 0) {
        if (length != NULL && (long)*length > refused.most)
            *length = (size_t)refused.most;
        return false;
    }
    errno = refused.error;
    return true;
}

static enum target target(int file) {
    return file == 0 || file == 1 || file == 2 ? STREAM : 0 <= file && file < FILES ? target_of[file] : NONE;
}

static enum target target_of_path(const char *given) {
    const char *last = strrchr(given, '/');
    last = last == NULL ? given : last + 1;
    size_t length = name == NULL ? 0 : strlen(name);
    if (length == 0)
        return NONE;
    if (strncmp(last, name, length) == 0)
        return last[length] == '\0' ? DESK : last[length] == '-' ? EXTRA : NONE;
    struct stat facts;
    return stat(given, &facts) == 0 && S_ISDIR(facts.st_mode) ? FOLDER : NONE;
}

static int opened(const char *given, int how, mode_t mode) {
    enum target kind = target_of_path(given);
    if (kind == NONE)
        return (int)syscall(SYS_openat, AT_FDCWD, given, how, mode);
    long file = fails(OPEN, NULL) ? -1 : syscall(SYS_openat, AT_FDCWD, given, how, mode);
    note(OPEN, kind, file, (uint64_t)how, 0, NULL);
    if (0 <= file && file < FILES)
        target_of[file] = (char)kind;
    return (int)file;
}

int open(const char *given, int how, ...) {
    va_list rest;
    va_start(rest, how);
    mode_t mode = how & (O_CREAT | O_TMPFILE) ? va_arg(rest, mode_t) : 0;
    va_end(rest);
    return opened(given, how, mode);
}

int open64(const char *given, int how, ...) {
    va_list rest;
    va_start(rest, how);
    mode_t mode = how & (O_CREAT | O_TMPFILE) ? va_arg(rest, mode_t) : 0;
    va_end(rest);
    return opened(given, how, mode);
}

int close(int file) {
    if (0 <= file && file < FILES)
        target_of[file] = NONE;
    return (int)syscall(SYS_close, file);
}

static int locked(int file, int word, void *given) {
    if (target(file) == NONE || (word != F_OFD_SETLK && word != F_SETLK))
        return (int)syscall(SYS_fcntl, file, word, given);
    long answer = fails(LOCK, NULL) ? -1 : syscall(SYS_fcntl, file, word, given);
    note(LOCK, target(file), answer, 0, 0, NULL);
    return (int)answer;
}

int fcntl(int file, int word, ...) {
    va_list rest;
    va_start(rest, word);
    void *given = va_arg(rest, void *);
    va_end(rest);
    return locked(file, word, given);
}

int fcntl64(int file, int word, ...) {
    va_list rest;
    va_start(rest, word);
    void *given = va_arg(rest, void *);
    va_end(rest);
    return locked(file, word, given);
}

int flock(int file, int how) {
    long answer = fails(LOCK, NULL) ? -1 : syscall(SYS_flock, file, how);
    note(LOCK, target(file), answer, 0, 0, NULL);
    return (int)answer;
}

static bool is_output(int file, const char *given) {
    return *given == '\0' ? file == 1 : strcmp(given, "/dev/stdout") == 0;
}

/* Says which file standard output is, from the facts of the desk's file. */
static int said_of_output(int how, unsigned mask, struct statx *facts) {
    long answer = syscall(SYS_statx, AT_FDCWD, path, how & ~AT_EMPTY_PATH, mask, facts);
    facts->stx_dev_major += output.major;
    facts->stx_dev_minor += output.minor;
    facts->stx_ino += output.number;
    return (int)answer;
}

int statx(int file, const char *restrict given, int how, unsigned mask, struct statx *restrict facts) {
    if (output.is_said && is_output(file, given))
        return said_of_output(how, mask, facts);
    enum target kind = *given == '\0' ? target(file) : target_of_path(given);
    if (kind == NONE || kind == STREAM)
        return (int)syscall(SYS_statx, file, given, how, mask, facts);
    long answer = fails(STAT, NULL) ? -1 : syscall(SYS_statx, file, given, how, mask, facts);
    note(STAT, kind, answer, 0, 0, NULL);
    return (int)answer;
}

static int synced(long number, int file) {
    if (slow > 0)
        usleep(slow);
    long answer = fails(SYNC, NULL) ? -1 : syscall(number, file);
    note(SYNC, target(file), answer, 0, 0, NULL);
    return (int)answer;
}

int fdatasync(int file) {
    return synced(SYS_fdatasync, file);
}

int fsync(int file) {
    return synced(SYS_fsync, file);
}

static int cut(int file, off_t length) {
    long answer = fails(CUT, NULL) ? -1 : syscall(SYS_ftruncate, file, length);
    note(CUT, target(file), answer, (uint64_t)length, 0, NULL);
    return (int)answer;
}

int ftruncate(int file, off_t length) {
    return cut(file, length);
}

int ftruncate64(int file, off_t length) {
    return cut(file, length);
}

int posix_fadvise(int file, off_t at, off_t length, int advice) {
    long answer = fails(ADVICE, NULL) ? -1 : syscall(SYS_fadvise64, file, at, length, advice);
    note(ADVICE, target(file), answer, 0, 0, NULL);
    return answer < 0 ? errno : 0;
}

int fchmod(int file, mode_t mode) {
    long answer = fails(MODE, NULL) ? -1 : syscall(SYS_fchmod, file, mode);
    note(MODE, target(file), answer, 0, 0, NULL);
    return (int)answer;
}

static ssize_t pread_(int file, void *bytes, size_t length, off_t at) {
    if (target(file) == NONE)
        return syscall(SYS_pread64, file, bytes, length, at);
    size_t room = length;
    long answer = fails(READ, &room) ? -1 : syscall(SYS_pread64, file, bytes, room, at);
    note(READ, target(file), answer, (uint64_t)at, length, NULL);
    return answer;
}

ssize_t pread(int file, void *bytes, size_t length, off_t at) {
    return pread_(file, bytes, length, at);
}

ssize_t pread64(int file, void *bytes, size_t length, off_t at) {
    return pread_(file, bytes, length, at);
}

static ssize_t pwrite_(int file, const void *bytes, size_t length, off_t at) {
    if (target(file) == NONE)
        return syscall(SYS_pwrite64, file, bytes, length, at);
    size_t room = length;
    long answer = fails(WRITE, &room) ? -1 : syscall(SYS_pwrite64, file, bytes, room, at);
    note(WRITE, target(file), answer, (uint64_t)at, length, bytes);
    return answer;
}

ssize_t pwrite(int file, const void *bytes, size_t length, off_t at) {
    return pwrite_(file, bytes, length, at);
}

ssize_t pwrite64(int file, const void *bytes, size_t length, off_t at) {
    return pwrite_(file, bytes, length, at);
}

ssize_t read(int file, void *bytes, size_t length) {
    enum target kind = target(file);
    if (kind == NONE)
        return syscall(SYS_read, file, bytes, length);
    size_t room = length;
    uint64_t at = kind == STREAM ? 0 : (uint64_t)syscall(SYS_lseek, file, 0, SEEK_CUR);
    enum kind call = kind == STREAM ? INPUT : READ;
    long answer = fails(call, &room) ? -1 : syscall(SYS_read, file, bytes, room);
    note(call, kind, answer, at, length, kind == STREAM ? bytes : NULL);
    return answer;
}

ssize_t write(int file, const void *bytes, size_t length) {
    enum target kind = target(file);
    if (kind == NONE)
        return syscall(SYS_write, file, bytes, length);
    size_t room = length;
    uint64_t at = kind == STREAM ? 0 : (uint64_t)syscall(SYS_lseek, file, 0, SEEK_CUR);
    enum kind call = kind != STREAM ? WRITE : file == 1 ? OUTPUT : REPORT;
    long answer = fails(call, &room) ? -1 : syscall(SYS_write, file, bytes, room);
    note(call, kind, answer, at, length, bytes);
    return answer;
}

/* The whole of a file, from its beginning. */
static char *whole(int file, size_t *length) {
    struct stat facts;
    if (fstat(file, &facts) != 0)
        _exit(96);
    char *bytes = malloc((size_t)facts.st_size + 1);
    if (bytes == NULL)
        _exit(96);
    *length = 0;
    for (long moved = 1; moved > 0 && *length < (size_t)facts.st_size; *length += (size_t)moved)
        moved = syscall(SYS_pread64, file, bytes + *length, (size_t)facts.st_size - *length, *length);
    return bytes;
}

static int at(const char *given, int how) {
    long file = syscall(SYS_openat, AT_FDCWD, given, how | O_CLOEXEC, 0644);
    if (file < 0)
        _exit(95);
    return (int)file;
}

static void copy(int from, int to, uint32_t *length) {
    size_t count;
    char *bytes = whole(from, &count);
    put(to, bytes, count);
    free(bytes);
    *length = (uint32_t)count;
}

/* Makes the child that runs the program, and says whether this is that child. */
static bool is_child(int nothing, const int *kept, int32_t *status) {
    pid_t child = fork();
    if (child == 0) {
        dup2(nothing, 0);
        dup2(kept[0], 1);
        dup2(kept[1], 2);
        events = kept[2];
        alarm(SECONDS);
        return true;
    }
    int how;
    if (child < 0 || waitpid(child, &how, 0) != child)
        _exit(94);
    *status = WIFEXITED(how) ? WEXITSTATUS(how) : -WTERMSIG(how);
    return false;
}

static void serve(const char *images, const char *results) {
    size_t length;
    char *all = whole(at(images, O_RDONLY), &length);
    int out = at(results, O_WRONLY | O_CREAT | O_TRUNC), nothing = at("/dev/null", O_RDONLY);
    int kept[3] = {memfd_create("output", 0), memfd_create("errors", 0), memfd_create("events", 0)};
    for (size_t begin = 0; begin < length;) {
        uint32_t count;
        memcpy(&count, all + begin, sizeof count);
        int file = at(path, O_WRONLY | O_CREAT | O_TRUNC);
        put(file, all + begin + sizeof count, count);
        syscall(SYS_close, file);
        begin += sizeof count + count;
        for (int i = 0; i < 3; i++) {
            syscall(SYS_ftruncate, kept[i], 0L);
            syscall(SYS_lseek, kept[i], 0L, SEEK_SET);
        }
        struct result head = {0};
        if (is_child(nothing, kept, &head.status))
            return;
        off_t place = lseek(out, 0, SEEK_CUR);
        put(out, &head, sizeof head);
        copy(kept[0], out, &head.output);
        copy(kept[1], out, &head.errors);
        copy(kept[2], out, &head.events);
        file = at(path, O_RDONLY);
        copy(file, out, &head.file);
        syscall(SYS_close, file);
        syscall(SYS_pwrite64, out, &head, sizeof head, place);
    }
    _exit(0);
}

__attribute__((constructor)) static void begin(void) {
    const char *log = getenv("DESK_LOG"), *refuse = getenv("DESK_REFUSE"), *served = getenv("DESK_SERVE");
    const char *longer = getenv("DESK_SLOW"), *said = getenv("DESK_OUTPUT");
    char images[4096], results[4096];
    path = getenv("DESK_FILE");
    if (path == NULL)
        return;
    name = strrchr(path, '/');
    name = name == NULL ? path : name + 1;
    if (refuse != NULL)
        sscanf(refuse, "%c %lu %lu %d %ld", &refused.kind, &refused.first, &refused.last, &refused.error,
               &refused.most);
    if (longer != NULL)
        slow = (useconds_t)atol(longer);
    if (said != NULL)
        output.is_said = sscanf(said, "%u %u %lu", &output.major, &output.minor, &output.number) == 3;
    if (log != NULL) {
        int file = at(log, O_WRONLY | O_CREAT | O_APPEND);
        events = (int)syscall(SYS_fcntl, file, F_DUPFD_CLOEXEC, HIGH);
        syscall(SYS_close, file);
    }
    if (served != NULL && sscanf(served, "%4095s %4095s", images, results) == 2)
        serve(images, results);
}
