/* Prints what `edicheck check STORE TEXT` prints: the errors of a text, and its tree.
 *   check STORE TEXT */
#include "edicheck.h"
#include <stdio.h>
#include <stdlib.h>

typedef uint32_t question(const uint8_t *, size_t, const uint8_t *, size_t, uint8_t *, size_t, size_t *);

struct octets { uint8_t *at; size_t length; };

static void *or_exit(void *at, const char *what) {
    if (at == NULL) { perror(what); exit(2); }
    return at;
}

/* The octets of a file. There is room for one octet more, so that an empty file isn't null. */
static struct octets read_file(const char *name) {
    struct octets file = {NULL, 0};
    FILE *in = or_exit(fopen(name, "rb"), name);
    for (size_t got = 1; got > 0; file.length += got) {
        file.at = or_exit(realloc(file.at, file.length + 65536), name);
        got = fread(file.at + file.length, 1, 65536, in);
    }
    fclose(in);
    return file;
}

/* Asks with a guess of the room, and once more if it was too small. */
static void print(question *ask, struct octets store, struct octets text) {
    size_t room = 0, needed = 1024;
    uint8_t *out = NULL;
    uint32_t code;
    do {
        room = needed;
        out = or_exit(realloc(out, room), "room");
        code = ask(store.at, store.length, text.at, text.length, out, room, &needed);
    } while (code == EDICHECK_NO_ROOM);
    if (code != EDICHECK_DONE) {
        fprintf(stderr, "check: code %u, number %zu\n", (unsigned)code, needed);
        exit(1);
    }
    fwrite(out, 1, needed, stdout);
    free(out);
}

int main(int count, char **words) {
    if (count != 3) { fputs("check STORE TEXT\n", stderr); return 2; }
    struct octets store = read_file(words[1]), text = read_file(words[2]);
    print(edicheck_errors, store, text);
    print(edicheck_tree, store, text);
    free(store.at);
    free(text.at);
    return fflush(stdout) ? 2 : 0;
}
