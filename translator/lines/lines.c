/*
 * Replies to each line of standard input, as the programs b32, c32 and mend do, over the libraries as C (dist/):
 *
 *     cc -O2 -I dist translator/lines/[a-z]*.c dist/bech32.c dist/codex32.c -o lines
 *     ./lines b32
 *
 * `./run` does so where the toolchain is missing, and `./run --help` lists the lines. These files are tested, by the
 * stored lines of the three programs, and not proved. They need the calls read and write (POSIX).
 */
#define _POSIX_C_SOURCE 200112L

#include "lines.h"

#include <errno.h>
#include <signal.h>
#include <stdio.h>
#include <stdlib.h>
#include <string.h>
#include <unistd.h>

/* So much is read at once; and a reply is gathered only where so much is free, else what is gathered is written first. */
#define READ_SIZE 65536u
#define OUT_ROOM 16384u
#define REPLY_ROOM 2048u

static const Command no_commands[] = {{NULL, 0, 0, NULL}};

typedef struct {
    const char *name, *no_memory;
    size_t longest_line;
    const Command *commands, *rest_commands;
} Program;

static const Program programs[] = {
    {"b32", "no memory", B32_LINE_LIMIT, b32_commands, no_commands},
    {"c32", "out of memory", LINE_LIMIT, c32_commands, no_commands},
    {"mend", "out of memory", LINE_LIMIT, mend_commands, mend_rest_commands},
};

/* The length of the character that bytes begin with, in UTF-8, or 0 where there is none. */
static size_t character_length(const uint8_t *bytes, size_t length) {
    uint8_t first = bytes[0];
    if (first < 0x80) {
        return 1;
    }
    size_t size = first < 0xe0 ? 2 : first < 0xf0 ? 3 : 4;
    if (first < 0xc2 || first > 0xf4 || length < size) {
        return 0;
    }
    /* In no longer form than it has to be, no half of a surrogate pair, and not above U+10FFFF. */
    uint8_t least = first == 0xe0 ? 0xa0 : first == 0xf0 ? 0x90 : 0x80;
    uint8_t most = first == 0xed ? 0x9f : first == 0xf4 ? 0x8f : 0xbf;
    if (bytes[1] < least || bytes[1] > most) {
        return 0;
    }
    for (size_t i = 2; i < size; i++) {
        if ((bytes[i] & 0xc0) != 0x80) {
            return 0;
        }
    }
    return size;
}

static int is_utf8(const uint8_t *bytes, size_t length) {
    while (length > 0) {
        size_t size = character_length(bytes, length);
        if (size == 0) {
            return 0;
        }
        bytes += size;
        length -= size;
    }
    return 1;
}

/* The words of a line, between single spaces, or 0 where one is empty. */
static size_t cut(const uint8_t *line, size_t length, Word *words) {
    size_t count = 0, start = 0;
    for (size_t i = 0; i <= length; i++) {
        if (i < length && line[i] != ' ') {
            continue;
        }
        if (i == start) {
            return 0;
        }
        words[count].bytes = line + start;
        words[count].length = i - start;
        count++;
        start = i + 1;
    }
    return count;
}

/* Puts the answer to a command whose word is the rest of the line, or returns the number of the refusal. */
static uint32_t answer_rest(const Command *commands, const uint8_t *line, size_t length, Out *out) {
    for (const Command *it = commands; it->name != NULL; it++) {
        size_t size = strlen(it->name);
        if (length > size && memcmp(line, it->name, size) == 0 && line[size] == ' ') {
            Word rest = {line + size + 1, length - size - 1};
            Words words = {&rest, 1};
            return it->answer(&words, out);
        }
    }
    return NO_COMMAND;
}

/* Puts the answer to a line, or returns the number of the refusal. */
static uint32_t answer(const Program *program, const uint8_t *line, size_t length, Out *out) {
    Word word[MOST_WORDS];
    if (length > program->longest_line) {
        return LINE_TOO_LONG;
    }
    if (!is_utf8(line, length)) {
        return LINE_NOT_UTF8;
    }
    uint32_t number = answer_rest(program->rest_commands, line, length, out);
    size_t count = cut(line, length, word);
    if (number != NO_COMMAND || count == 0) {
        return number;
    }
    Words words = {word + 1, count - 1};
    for (const Command *it = program->commands; it->name != NULL; it++) {
        if (is_word(word[0], it->name) && it->least <= words.count && words.count <= it->most) {
            return it->answer(&words, out);
        }
    }
    return NO_COMMAND;
}

static int write_out(Out *out) {
    size_t done = 0;
    while (done < out->length) {
        ssize_t written = write(STDOUT_FILENO, out->bytes + done, out->length - done);
        if (written > 0) {
            done += (size_t)written;
        } else if (written == 0 || errno != EINTR) {
            return 0;
        }
    }
    out->length = 0;
    return 1;
}

/* Gathers the reply to a line, for which there is room, be it a refusal, or the replies before it are written. */
static int reply(const Program *program, const uint8_t *line, size_t length, Out *out) {
    if (out->length > OUT_ROOM - REPLY_ROOM && !write_out(out)) {
        return 0;
    }
    size_t front = out->length;
    uint32_t number = answer(program, line, length, out);
    if (out->has_failed) {
        number = OUT_OF_MEMORY;
        out->has_failed = 0;
    }
    if (number != FINE) {
        out->length = front;
        put_text(out, "err ");
        put_number(out, number);
    }
    put_text(out, "\n");
    return 1;
}

/* What is kept of a line that has not ended: one byte more than it may have in any program shows that it is too long. */
typedef struct {
    uint8_t bytes[LINE_LIMIT + 1];
    size_t length;
} Line;

static void keep(Line *line, const uint8_t *bytes, size_t length) {
    size_t room = sizeof line->bytes - line->length, kept = length < room ? length : room;
    memcpy(line->bytes + line->length, bytes, kept);
    line->length += kept;
}

/* Replies to each line that these bytes end, and writes all replies. */
static int feed(const Program *program, Line *line, const uint8_t *bytes, size_t length, Out *out) {
    const uint8_t *end;
    while ((end = memchr(bytes, '\n', length)) != NULL) {
        size_t size = (size_t)(end - bytes);
        int is_whole = line->length == 0;
        if (!is_whole) {
            keep(line, bytes, size);
        }
        if (!reply(program, is_whole ? bytes : line->bytes, is_whole ? size : line->length, out)) {
            return 0;
        }
        line->length = 0;
        bytes += size + 1;
        length -= size + 1;
    }
    keep(line, bytes, length);
    return write_out(out);
}

static ssize_t read_some(uint8_t *bytes, size_t room) {
    ssize_t count;
    do {
        count = read(STDIN_FILENO, bytes, room);
    } while (count < 0 && errno == EINTR);
    return count;
}

/* Replies to all lines, and returns what failed, or nothing. */
static const char *run(const Program *program) {
    static uint8_t bytes[READ_SIZE];
    static Line line;
    Out out = {malloc(OUT_ROOM), 0, OUT_ROOM, 0};
    const char *failed = out.bytes == NULL ? program->no_memory : NULL;
    while (failed == NULL) {
        ssize_t count = read_some(bytes, sizeof bytes);
        if (count < 0) {
            failed = "reading failed";
        } else if (count > 0) {
            failed = feed(program, &line, bytes, (size_t)count, &out) ? NULL : "writing failed";
        } else {
            int is_done = line.length == 0 ||
                          (reply(program, line.bytes, line.length, &out) && write_out(&out));
            failed = is_done ? NULL : "writing failed";
            break;
        }
    }
    free(out.bytes);
    return failed;
}

int main(int count, char **words) {
    signal(SIGPIPE, SIG_IGN);
    for (size_t i = 0; count == 2 && i < sizeof programs / sizeof programs[0]; i++) {
        if (strcmp(words[1], programs[i].name) == 0) {
            const char *failed = run(&programs[i]);
            if (failed != NULL) {
                fprintf(stderr, "%s: %s\n", programs[i].name, failed);
            }
            return failed != NULL;
        }
    }
    fprintf(stderr, "usage: lines b32|c32|mend, with commands on standard input\n");
    return 2;
}
