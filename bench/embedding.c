/* Prints the processor time of a call of the static library: the mean of COUNT calls, the least of five rounds, and the answer's length.
 *   embedding STORE TEXT COUNT */
#define _POSIX_C_SOURCE 200809L
#include "edicheck.h"
#include <stdio.h>
#include <stdlib.h>
#include <string.h>
#include <time.h>

enum { LIMIT = 4194304, ROOM = 64 << 20, ROUNDS = 5 };

struct octets { uint8_t *at; size_t length; };
static struct octets store, text;
static uint8_t *out;

static struct octets read_file(const char *name) {
    FILE *in = fopen(name, "rb");
    struct octets file = {malloc(LIMIT + 1), 0};
    if (in == NULL || file.at == NULL) { perror(name); exit(2); }
    file.length = fread(file.at, 1, LIMIT + 1, in);
    fclose(in);
    return file;
}

static uint32_t ask(const char *question, size_t *needed) {
    static const uint8_t stamp[] = "960105:0930", reference[] = "A1", script[] = "errors\nend\n";
    switch (question[0]) {
    case 'e': return edicheck_errors(store.at, store.length, text.at, text.length, out, ROOM, needed);
    case 't': return edicheck_tree(store.at, store.length, text.at, text.length, out, ROOM, needed);
    case 'c': return edicheck_contrl(store.at, store.length, text.at, text.length, stamp, 11, reference, 2, out, ROOM, needed);
    default: return edicheck_script(store.at, store.length, text.at, text.length, script, 11, out, ROOM, needed);
    }
}

static double now(void) {
    struct timespec at;
    clock_gettime(CLOCK_PROCESS_CPUTIME_ID, &at);
    return at.tv_sec + at.tv_nsec / 1e9;
}

int main(int words, char **word) {
    static const char *const questions[] = {"errors", "tree", "contrl", "script of `errors` and `end`"};
    if (words != 4) { fputs("embedding STORE TEXT COUNT\n", stderr); return 2; }
    store = read_file(word[1]), text = read_file(word[2]), out = malloc(ROOM);
    if (out == NULL) { perror("room"); return 2; }
    int count = atoi(word[3]);
    for (int i = 0; i < 4; i++) {
        double least = 1e9;
        size_t needed = 0;
        uint32_t code = EDICHECK_DONE;
        for (int round = 0; round < ROUNDS; round++) {
            double began = now();
            for (int call = 0; call < count; call++) code = ask(questions[i], &needed);
            double took = (now() - began) / count;
            if (took < least) least = took;
        }
        printf("%-10s %-12s %-28s code %u %12.1f us %10zu octets\n", word[1], word[2], questions[i], (unsigned)code, least * 1e6, needed);
    }
    return 0;
}
