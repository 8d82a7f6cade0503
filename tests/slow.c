// A stand-in for `ssign review`, which tests/cost.py has to find too slow: it writes a line for each frame of standard
// input, and does besides what the variable SLOW names. Without it each part of the log costs what the one before does.
//
//   looks    looks at each message before, for each message
//   octets   goes over a message once for each of its octets
//   copies   copies all that it wrote, for each message
//   keeps    keeps a copy of all that it wrote, for each message
//   takes    takes room and gives it back once for each message before, for each message
//   reads    reads the log from its beginning, for each message
//   rooms    takes the room of the longest message for each message
//   twice    reads the log twice, once it is written about
//   pieces   reads the log by an octet at a time
//   late     reads once more after the end of the log
//   spends   takes a megabyte for each message, and gives it back
//   renews   takes room for each message, and gives it back
#define _GNU_SOURCE
#include <fcntl.h>
#include <stdio.h>
#include <stdlib.h>
#include <string.h>
#include <unistd.h>

static char *log_octets, *output;
static size_t size, written, count;
static volatile unsigned long sum;

static void look(void) {
    for (size_t before = 0; before < count; before++)
        sum += before;
}

static void octets(const char *text, size_t length) {
    for (size_t from = 0; from < length; from++)
        for (size_t at = 0; at < length; at += 64)
            sum += text[at];
}

static void copy(int kept) {
    char *room = malloc(written + 1);
    void *(*volatile put)(void *, const void *, size_t) = memcpy;
    put(room, output, written);
    if (!kept)
        free(room);
}

static void take(void) {
    void *(*volatile room)(size_t) = malloc;
    for (size_t before = 0; before < count; before++)
        free(room(1));
}

static void read_again(void) {
    char part[4096];
    lseek(0, 0, SEEK_SET);
    while (read(0, part, sizeof part) > 0)
        sum += part[0];
}

static void spend(size_t room) {
    void *(*volatile take)(size_t) = malloc;
    free(take(room));
}

// reads a file to its end
static void read_file(const char *path) {
    char part[65536];
    int file = open(path, O_RDONLY);
    while (read(file, part, sizeof part) > 0)
        sum += part[0];
    close(file);
}

static void do_slowly(const char *what, const char *text, size_t length) {
    if (!strcmp(what, "looks"))
        look();
    else if (!strcmp(what, "octets"))
        octets(text, length);
    else if (!strcmp(what, "copies"))
        copy(0);
    else if (!strcmp(what, "keeps"))
        copy(1);
    else if (!strcmp(what, "takes"))
        take();
    else if (!strcmp(what, "reads"))
        read_again();
    else if (!strcmp(what, "rooms"))
        sum += (size_t)malloc(1 << 16) & 1;
    else if (!strcmp(what, "spends"))
        spend(1 << 20);
    else if (!strcmp(what, "renews"))
        spend(length + 1);
}

int main(int argc, char **argv) {
    const char *slow = getenv("SLOW");
    size_t most = 1 << 16, least = slow && !strcmp(slow, "pieces") ? 1 : most;
    ssize_t taken;
    // the last word names the answers file
    read_file(argv[argc - 1]);
    log_octets = malloc(most);
    while ((taken = read(0, log_octets + size, least < most - size ? least : most - size)) > 0)
        if ((size += taken) == most)
            log_octets = realloc(log_octets, most *= 2);
    // a frame has three octets or more, and its line at most 16
    output = malloc(8 * size + 64);
    for (char *at = log_octets; at < log_octets + size; count++) {
        size_t length = strtoul(at, &at, 10);
        for (size_t i = 0; i < length; i++)
            sum += at[i];
        written += sprintf(output + written, "unlisted %zu\n", count);
        do_slowly(slow ? slow : "", at + 1, length);
        at += 1 + length;
    }
    if (slow && !strcmp(slow, "twice"))
        read_again();
    if (slow && !strcmp(slow, "late"))
        sum += read(0, log_octets, 1);
    written += sprintf(output + written, "end %zu\n", count);
    return write(1, output, written) < 0 ? 2 : 1;
}
