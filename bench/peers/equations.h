// Reads an equation list (lines `unknown NAME`, `eq NAME NAME=VALUE ..`) by one loop over its bytes, for the peers that include this. A name is
// the bytes where it stands, and a value is read as it is met.
#include <stdio.h>
#include <stdlib.h>
#include <string.h>

#define PLACES (1 << 16)

// The names of the columns by their hashes, each beside its length and its number; at most 8,192 of them.
static struct { const char *name; long length, number; } names[PLACES];
static long columns, rows;

// The number of the column with this name and this hash, the next one where it is new.
static long column(const char *name, long length, unsigned long hash) {
    for (hash = hash * 0x9e3779b97f4a7c15 >> 48; names[hash].name; hash = (hash + 1) % PLACES)
        if (names[hash].length == length && !memcmp(names[hash].name, name, length)) return names[hash].number;
    names[hash].name = name;
    names[hash].length = length;
    return names[hash].number = columns++;
}

// The whole input, with a line feed behind it; it is kept to the end, as names stand in it.
static char *whole_input(char **end) {
    size_t room = 1 << 20, length = 0, more;
    char *text = malloc(room);
    while ((more = fread(text + length, 1, room - length - 1, stdin)) > 0) {
        length += more;
        if (length == room - 1) text = realloc(text, room *= 2);
    }
    text[length] = '\n';
    *end = text + length;
    return text;
}

// Hands on each place with its row and its column, both counted from 0, and its number, 0 where it has a symbol.
static void read_equations(void (*place)(long row, long column, long value)) {
    char *end, *at = whole_input(&end);
    while (at < end) {
        int is_equation = *at == 'e', words = 0;
        while (at < end && *at != '\n') {
            while (*at == ' ') at++;
            const char *name = at;
            unsigned long hash = 5381;
            for (; *at > ' ' && *at != '='; at++) hash = hash * 33 + (unsigned char)*at;
            long length = at - name, value = 0, is_negative = 0;
            if (*at == '=') {
                is_negative = *++at == '-';
                for (at += is_negative; *at > ' '; at++) value = *at == '?' ? 0 : value * 10 + *at - '0';
            }
            if (length && words++ && (!is_equation || words > 2)) {
                long number = column(name, length, hash);
                if (is_equation) place(rows, number, is_negative ? -value : value);
            }
        }
        rows += is_equation;
        at++;
    }
}
