/* A stand-in for the program, with -DDESK for the desk, or with -DLIBRARY for the library for C: enough to make a package of. */
#include <stdio.h>
#include <string.h>

#if defined LIBRARY
int dam_clear_seeded(void);

int dam_clear_seeded(void) {
    return 0;
}
#elif defined DESK
static char line[1 << 17];

/* Answers the day with its first two fields, and an entry with its number. Returns the number of the next entry. */
static int answered(int number) {
    if (number) {
        printf("%d,done\n", number);
    } else {
        strchr(strchr(line, ',') + 1, ',')[0] = '\0';
        puts(line);
    }
    return number + 1;
}

/* Keeps each line that isn't empty in the file, and answers it, but syncs nothing. The day may come again. */
static int serve(FILE *file) {
    int number = 0, count = 0;
    while (fgets(line, sizeof line, file)) {
        number = answered(number);
    }
    while (fgets(line, sizeof line, stdin)) {
        count++;
        if (line[0] == '\n') {
            printf("fault,%d,NotOneRecord\n", count);
        } else if (count == 1 && number) {
            answered(0);
        } else {
            fseek(file, 0, SEEK_END);
            fputs(line, file);
            fflush(file);
            number = answered(number);
        }
        fflush(stdout);
    }
    return 0;
}

/* USAGE is the desk's own. */
int main(int count, char **words) {
    int shows = count == 3 && strcmp(words[1], "--journal") == 0;
    if (count == 2 && strcmp(words[1], "--help") == 0) {
        return fputs(USAGE, stdout) < 0;
    }
    if (count != 2 && !shows) {
        fputs("command line\n" USAGE, stderr);
        return 2;
    }
    FILE *file = fopen(words[count - 1], shows ? "r" : "a+");
    if (!file) {
        return 4;
    }
    while (shows && fgets(line, sizeof line, file)) {
        fputs(line, stdout);
    }
    return shows ? 0 : serve(file);
}
#else
#define EMPTY "day,24,,,,,,,\nclose,,,,,,,,\n"

/* Whether the input is an empty day, with which the office tries the program. */
static int is_empty_day(void) {
    char text[sizeof EMPTY] = "";
    size_t length = fread(text, 1, sizeof text, stdin);
    return length == sizeof EMPTY - 1 && memcmp(text, EMPTY, length) == 0;
}

int main(int count, char **words) {
    if (count == 2 && strcmp(words[1], "clear") == 0) {
        if (is_empty_day()) {
            return fputs("day,24\nwelfare,0\n", stdout) < 0;
        }
        fprintf(stderr, "%s clears nothing\n", words[0]);
        return 9;
    }
    if (count > 2 && strcmp(words[1], "replay") != 0) {
        printf("Stands in\n\nUsage: dam %s [OPTIONS]\n\nOptions:\n      --workers <N>  Search\n      --cut <K>  Split\n"
               "      --nodes <M>  Give up\n  -h, --help  Print help\n",
               words[1]);
    } else {
        printf("Stands in\n\nUsage: dam replay < JOURNAL\n       dam clear < JOURNAL\n\nCommands:\n  replay  Replies\n  clear  Results\n"
               "  day  A day\n\nOptions:\n  -h, --help  Print help\n");
    }
    return 0;
}
#endif
