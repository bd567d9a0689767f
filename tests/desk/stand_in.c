/* stand_in.c: a small desk that answers each line by its number, from the file that STAND_IN_REPLIES names, with one
   fault that STAND_IN names, or none. The tests of a desk have to find each fault. */

#define _GNU_SOURCE
#include <errno.h>
#include <fcntl.h>
#include <stdbool.h>
#include <stdio.h>
#include <stdlib.h>
#include <string.h>
#include <unistd.h>

enum { MOST = 1 << 24, READ = 65536, LINES = 10001, LATE = 500 };

static const char HEAD[] = "+dam-desk 1\n";
static const size_t FIRST = sizeof HEAD - 1;

static int file;
static char bytes[MOST], batch[2 * READ], input[2 * READ], replies[MOST], answers[MOST];
static char *reply[LINES + 2];
static size_t end;      /* of the lines in the file */
static size_t entered;  /* how many lines it has */
static const char *fault;

static bool has(const char *name) {
    return strcmp(fault, name) == 0;
}

static void fail(const char *why) {
    fprintf(stderr, "file: %s: %s\n", why, strerror(errno));
    exit(4);
}

static void sync_file(void) {
    if (fdatasync(file) == 0)
        return;
    if (has("retry") && fdatasync(file) == 0)
        return;
    fail("the file can't be synced");
}

static void put(size_t at, const char *text, size_t length) {
    for (size_t done = 0; done < length;) {
        ssize_t moved = pwrite(file, text + done, length - done, (off_t)(at + done));
        if (moved < 0)
            fail("the file can't be written");
        done += (size_t)moved;
    }
}

static void put_synced(size_t at, const char *text, size_t length) {
    put(at, text, length);
    if (!has("unsynced repair"))
        sync_file();
}

static void print(const char *text, size_t length) {
    for (size_t done = 0; done < length;) {
        ssize_t moved = write(1, text + done, length - done);
        if (moved < 0)
            exit(4);
        done += (size_t)moved;
    }
}

/* Answers these lines, by their numbers. */
static void answer(size_t from, size_t to) {
    size_t length = 0;
    for (size_t line = from; line < to; line++) {
        const char *text = reply[has("book after") && line > 0 && reply[line + 1] != NULL ? line + 1 : line];
        size_t count = strlen(text);
        memcpy(answers + length, text, count);
        answers[length + count] = '\n';
        length += count + 1;
    }
    print(answers, length);
}

static void read_replies(void) {
    int from = open(getenv("STAND_IN_REPLIES"), O_RDONLY);
    ssize_t length = read(from, replies, MOST - 1);
    close(from);
    size_t count = 0;
    for (char *at = replies; length > 0 && at < replies + length && count < LINES; at = strchr(at, '\n') + 1) {
        reply[count++] = at;
    }
    for (char *at = replies; at < replies + length; at++)
        if (*at == '\n')
            *at = '\0';
}

/* Finds the lines at the beginning of the file. */
static void scan(size_t length) {
    end = FIRST;
    while (end < length) {
        char *newline = memchr(bytes + end, '\n', length - end);
        if (bytes[end] != '+' && !(has("takes all") && bytes[end] == '-' && newline != NULL))
            return;
        if (newline == NULL && !has("torn line"))
            return;
        bytes[end] = '+';
        end = newline == NULL ? length : (size_t)(newline - bytes) + 1;
        entered++;
    }
}

static void drop_last(void) {
    if (entered == 0)
        return;
    for (end--; bytes[end - 1] != '\n'; end--)
        ;
    entered--;
}

static void blank(size_t length) {
    if (end + 1 < length && memchr(bytes + end + 1, '\n', length - end - 1) != NULL) {
        memset(bytes + end + 1, ' ', length - end - 1);
        put_synced(end + 1, bytes + end + 1, length - end - 1);
    }
}

static void gate(size_t length) {
    if (end >= length || bytes[end] != '-')
        put_synced(end, "-", 1);
}

/* Makes the name of the file safe. */
static void sync_folder(char *path) {
    char *slash = strrchr(path, '/');
    if (slash == NULL)
        return;
    *slash = '\0';
    int folder = open(path, O_RDONLY);
    if (folder < 0 || fsync(folder) != 0)
        fail("the folder can't be synced");
    close(folder);
}

/* Makes a file that never was whole, or closes the end of another one. */
static void open_file(void) {
    if (!has("no first sync"))
        sync_file();
    ssize_t found = pread(file, bytes, MOST, 0);
    size_t length = found < 0 ? 0 : (size_t)found;
    if (length < FIRST || memcmp(bytes, HEAD, FIRST) != 0) {
        if (!(length < 2 || (bytes[0] == '-' && length <= FIRST + 1) ||
              (length == FIRST + 1 && memcmp(bytes + 1, "dam-desk 1\n-", FIRST) == 0))) {
            fprintf(stderr, "file: the file isn't a desk's journal\n");
            exit(1);
        }
        if (length == 0 || bytes[0] != '-')
            put_synced(0, "-", 1);
        put_synced(1, "dam-desk 1\n-", FIRST);
        put_synced(0, "+", 1);
        end = FIRST;
        return;
    }
    scan(length);
    if (has("drops last"))
        drop_last();
    if (has("mark before blanks"))
        gate(length);
    blank(length);
    gate(length);
}

/* Appends the lines of the batch; each has its mark. */
static void append(size_t length) {
    batch[length] = '-';
    if (has("mark first")) {
        put_synced(end, "+", 1);
        put_synced(end + 1, batch + 1, length);
    } else {
        put(end + 1, batch + 1, length);
        if (!has("one sync"))
            sync_file();
        put(end, "+", 1);
        if (!has("answer before sync"))
            sync_file();
    }
    end += length;
}

/* Adds the lines that came in to the batch, and says how many bytes they have as input. */
static size_t take(size_t count, size_t *length, size_t *lines) {
    size_t used = 0;
    for (char *newline; (newline = memchr(input + used, '\n', count - used)) != NULL; (*lines)++) {
        size_t line = (size_t)(newline - input) + 1 - used;
        batch[*length] = '+';
        memcpy(batch + *length + 1, input + used, line);
        *length += line + 1;
        used += line;
    }
    return used;
}

static void work(bool is_new) {
    size_t count = 0;
    for (ssize_t moved; (moved = read(0, input + count, READ)) > 0;) {
        size_t length = 0, lines = 0;
        count += (size_t)moved;
        size_t used = take(count, &length, &lines);
        memmove(input, input + used, count - used);
        count -= used;
        if (lines == 0)
            continue;
        if (has("early")) {
            answer(entered, entered + lines);
            usleep(LATE);
        }
        append(length);
        if (has("twice") && !is_new) {
            append(length);
            is_new = true;
        }
        if (!has("early"))
            answer(entered, entered + lines);
        if (has("answer before sync"))
            sync_file();
        entered += lines;
    }
}

/* The journal, without marks. */
static int journal(const char *path) {
    file = open(path, O_RDONLY);
    ssize_t found = pread(file, bytes, MOST, 0);
    scan(found < 0 ? 0 : (size_t)found);
    for (size_t at = FIRST; at < end; at++)
        if (bytes[at - 1] != '\n')
            putchar(bytes[at]);
    return 0;
}

int main(int count, char **words) {
    fault = getenv("STAND_IN") == NULL ? "" : getenv("STAND_IN");
    if (count > 2)
        return journal(words[2]);
    read_replies();
    file = open(words[1], O_RDWR | O_CREAT, 0644);
    struct flock lock = {.l_type = F_WRLCK, .l_whence = SEEK_SET, .l_start = 1 << 30, .l_len = 512};
    if (!has("second desk") && fcntl(file, F_OFD_SETLK, &lock) != 0) {
        fprintf(stderr, "file: another process has it\n");
        return 4;
    }
    if (!has("no folder"))
        sync_folder(words[1]);
    open_file();
    bool is_new = entered == 0;
    answer(0, entered);
    work(is_new);
    return 0;
}
