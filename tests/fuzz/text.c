/* Bytes as the program's standard input, with the program held against itself: it ends with status 0, what it writes is a ring or a refusal of its form, and
   the corners of a ring, given to it as text, are that ring again. The program's main, read and write have the names below here. */

#include <stdint.h>
#include <stdio.h>
#include <stdlib.h>
#include <string.h>

extern int program_main(void);
long program_read(int from, void *into, size_t most);
long program_write(int to, const void *from, size_t most);

enum { MOST_WRITTEN = 1 << 16, CORNER_LINES = 512 };

static const uint8_t *text;
static size_t text_at, text_end;
static char wrote[MOST_WRITTEN + 1];
static size_t wrote_end;

static void hold(int held) {
    if (!held) abort();
}

/* at most as much at a time as the first byte says, so that the text comes in pieces */
long program_read(int from, void *into, size_t most) {
    hold(from == 0);
    size_t some = text_end > 0 ? (size_t)text[0] * 16 + 1 : 0;
    if (some > most) some = most;
    if (some > text_end - text_at) some = text_end - text_at;
    if (some > 0) memcpy(into, text + text_at, some);
    text_at += some;
    return (long)some;
}

long program_write(int to, const void *from, size_t most) {
    hold(to == 1 && wrote_end + most <= MOST_WRITTEN);
    memcpy(wrote + wrote_end, from, most);
    wrote_end += most;
    return (long)most;
}

static void run(const uint8_t *bytes, size_t size) {
    text = bytes;
    text_at = 0;
    text_end = size;
    wrote_end = 0;
    hold(program_main() == 0);
    wrote[wrote_end] = 0;
}

/* the number at a place of what was written, without a leading zero, and the place behind it */
static const char *number(const char *at, long least, long greatest, long *value) {
    char *end, again[32];
    *value = strtol(at, &end, 10);
    snprintf(again, sizeof again, "%ld", *value);
    hold((size_t)(end - at) == strlen(again) && memcmp(at, again, strlen(again)) == 0);
    hold(*value >= least && *value <= greatest);
    return end;
}

static void ring(const char *at) {
    long corners, part;
    at = number(at, 0, CORNER_LINES, &corners);
    hold(*at++ == '\n');
    const char *first = at;
    for (long k = 0; k < corners; k++) {
        at = number(at, -1000000, 1000000, &part);
        hold(*at++ == ' ');
        at = number(at, -1000000, 1000000, &part);
        hold(*at++ == '\n');
    }
    hold(*at == 0);
    static char before[MOST_WRITTEN + 1];
    size_t size = wrote_end;
    memcpy(before, wrote, size + 1);
    run((const uint8_t *)before + (first - wrote), size - (size_t)(first - wrote));
    hold(wrote_end == size && memcmp(wrote, before, size) == 0);
}

static void refused(const char *at) {
    long of, place;
    at = number(at, 2, 15, &of);
    hold(*at++ == ' ');
    at = number(at, 0, CORNER_LINES, &place);
    hold(strcmp(at, "\n") == 0);
    hold((of == 2 && place == 0) || (of == 3 && place < CORNER_LINES) || (of == 15 && place > 0));
}

int LLVMFuzzerTestOneInput(const uint8_t *bytes, size_t size) {
    run(bytes, size);
    if (strncmp(wrote, "ring ", 5) == 0) {
        ring(wrote + 5);
    } else {
        hold(strncmp(wrote, "refused ", 8) == 0);
        refused(wrote + 8);
    }
    return 0;
}
