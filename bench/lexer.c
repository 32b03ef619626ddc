// A plain lexer for the same tokens, without names beyond ASCII: it counts tokens, and sums the lengths of their texts so that the work is not
// left out. It reads its standard input to the end, takes the tokens as often as its first word says, and prints the nanoseconds of the best time.
#include <ctype.h>
#include <stdio.h>
#include <stdlib.h>
#include <time.h>

static char text[1 << 22];

static int is_name(int c) { return isalnum(c) || c == '_'; }

static size_t token_end(size_t at, size_t size) {
    char c = text[at], d = at + 1 < size ? text[at + 1] : 0;
    if (isalpha((unsigned char)c) || c == '_') {
        while (at < size && is_name((unsigned char)text[at])) at++;
        return at;
    }
    if (isdigit((unsigned char)c) || ((c == '-' || c == '#') && isdigit((unsigned char)d))) {
        at++;
        while (at < size && isdigit((unsigned char)text[at])) at++;
        return at;
    }
    if ((c == ':' && d == '=') || (c == '-' && d == '>') || (c == '=' && d == '>')) return at + 2;
    return at + 1;
}

int main(int count, char **words) {
    size_t size = fread(text, 1, sizeof text, stdin);
    int turns = count > 1 ? atoi(words[1]) : 1;
    long best = 0;
    size_t tokens = 0, sum = 0;
    for (int turn = 0; turn < turns; turn++) {
        struct timespec before, after;
        clock_gettime(CLOCK_MONOTONIC, &before);
        for (size_t at = 0; at < size;) {
            char c = text[at];
            if (c == ' ' || c == '\n' || c == '\t' || c == '\r') {
                at++;
            } else if (c == '-' && at + 1 < size && text[at + 1] == '-') {
                while (at < size && text[at] != '\n') at++;
            } else {
                size_t end = token_end(at, size);
                tokens++;
                sum += end - at;
                at = end;
            }
        }
        clock_gettime(CLOCK_MONOTONIC, &after);
        long took = (after.tv_sec - before.tv_sec) * 1000000000L + (after.tv_nsec - before.tv_nsec);
        if (turn == 0 || took < best) best = took;
    }
    printf("%ld %zu %zu\n", best, tokens, sum);
    return 0;
}
