/* Calls the static library as a program in C does, and tries what no clause says of it. Run by tests/embedding.
 *   embedding STORE TEXT ERRORS TREE CONTRL SCRIPT REPLIES
 * The last files have what the program prints. Prints a line for what failed, and `N passed, M failed`.
 * The heap that the library asks is this file's: it counts blocks, and refuses those that it is told to. */
#define _POSIX_C_SOURCE 200809L
#include "edicheck.h"
#include <pthread.h>
#include <stdatomic.h>
#include <stdbool.h>
#include <stdio.h>
#include <stdlib.h>
#include <string.h>
#include <sys/resource.h>

enum { LIMIT = 4194304, ROOM = 65536, CALLS = 100000, THREADS = 8, CALLS_OF_A_THREAD = 2000 };

/* How a thread's allocations are counted; those from `first` to `last` are refused, and are numbered from 1. */
static _Thread_local long asked, first, last;
static atomic_long blocks;

struct tried { bool ok; void *at; };
static char nothing;

static bool is_refused(void) { return ++asked >= first && asked <= last; }

struct tried rattle_alloc(size_t size, size_t align) {
    void *at = is_refused() ? NULL : malloc(size ? size : align);
    blocks += at != NULL;
    return (struct tried){at != NULL, at ? at : &nothing};
}

struct tried rattle_realloc(void *from, size_t kept, size_t size, size_t align) {
    (void)kept;
    void *at = is_refused() ? NULL : realloc(from, size ? size : align);
    return (struct tried){at != NULL, at ? at : &nothing};
}

void rattle_dealloc(void *at) {
    blocks--;
    free(at);
}

struct octets { uint8_t *at; size_t length; };
static struct octets store, text, script;
static int passed, failed;

static void expect(bool well, const char *what) {
    well ? passed++ : failed++;
    if (!well) printf("failed: %s\n", what);
}

static struct octets read_file(const char *name) {
    FILE *in = fopen(name, "rb");
    struct octets file = {malloc(LIMIT + 2), 0};
    if (in == NULL || file.at == NULL) { perror(name); exit(2); }
    file.length = fread(file.at, 1, LIMIT + 1, in);
    fclose(in);
    return file;
}

static struct octets octets_of(const char *words) { return (struct octets){(uint8_t *)words, strlen(words)}; }

/* One question, and what is found after it. */
struct call { char kind; struct octets store, text, more, reference; };
struct found { uint32_t code; size_t needed; uint8_t *out; };

static struct found ask(struct call it, size_t room) {
    static _Thread_local uint8_t out[ROOM];
    struct found found = {99, 12345, out};
    memset(out, 0xAA, ROOM);
    switch (it.kind) {
    case 'e': found.code = edicheck_errors(it.store.at, it.store.length, it.text.at, it.text.length, out, room, &found.needed); break;
    case 't': found.code = edicheck_tree(it.store.at, it.store.length, it.text.at, it.text.length, out, room, &found.needed); break;
    case 'c': found.code = edicheck_contrl(it.store.at, it.store.length, it.text.at, it.text.length, it.more.at, it.more.length,
                                           it.reference.at, it.reference.length, out, room, &found.needed); break;
    case 's': found.code = edicheck_script(it.store.at, it.store.length, it.text.at, it.text.length, it.more.at, it.more.length,
                                           out, room, &found.needed); break;
    }
    return found;
}

/* From this place on the buffer is as it was. */
static bool is_untouched(struct found found, size_t from) {
    while (from < ROOM && found.out[from] == 0xAA) from++;
    return from == ROOM;
}

static bool gives(struct found found, uint32_t code, struct octets due) {
    return found.code == code && found.needed == due.length && memcmp(found.out, due.at, due.length) == 0
        && is_untouched(found, due.length);
}

static bool refuses(struct found found, uint32_t code, size_t needed) {
    return found.code == code && found.needed == needed && is_untouched(found, 0);
}

static bool has(struct found found, const char *part) {
    size_t length = strlen(part);
    for (size_t i = 0; i + length <= found.needed; i++)
        if (memcmp(found.out + i, part, length) == 0) return true;
    return false;
}

/* What is due, at the exact room, and one octet below that. */
static void try_rooms(struct call it, struct octets due, const char *what) {
    expect(gives(ask(it, ROOM), EDICHECK_DONE, due), what);
    expect(gives(ask(it, due.length), EDICHECK_DONE, due), what);
    expect(refuses(ask(it, due.length - 1), EDICHECK_NO_ROOM, due.length), what);
    expect(refuses(ask(it, 0), EDICHECK_NO_ROOM, due.length), what);
}

static void try_codes(struct call errors, struct call contrl, struct call replies) {
    struct call it = errors;
    uint8_t *spoiled = malloc(store.length + 1), *spaces = malloc(LIMIT + 1);
    memcpy(spoiled, store.at, store.length);
    memset(spaces, ' ', LIMIT + 1);

    spoiled[0] = 'X';
    it.store = (struct octets){spoiled, store.length};
    expect(refuses(ask(it, ROOM), EDICHECK_BAD_STORE, 0), "a store whose first line is of no version");
    spoiled[0] = store.at[0];
    spoiled[store.length] = '\n';
    it.store.length = store.length + 1;
    expect(refuses(ask(it, ROOM), EDICHECK_BAD_STORE, store.length), "a store with an octet after it");

    it = errors;
    it.text = (struct octets){spaces, LIMIT + 1};
    expect(refuses(ask(it, ROOM), EDICHECK_TOO_LONG, 0), "a text over the limit");
    it.text.length = LIMIT;
    expect(ask(it, ROOM).code == EDICHECK_DONE, "a text at the limit");
    it = errors;
    it.store = (struct octets){spaces, LIMIT + 1};
    expect(refuses(ask(it, ROOM), EDICHECK_TOO_LONG, 0), "a store over the limit");
    it = replies;
    it.more = (struct octets){spaces, LIMIT + 1};
    expect(refuses(ask(it, ROOM), EDICHECK_TOO_LONG, 0), "a script over the limit");

    it = contrl;
    it.more = octets_of("960105-0930");
    expect(refuses(ask(it, ROOM), EDICHECK_BAD_STAMP, 0), "a stamp without its colon");
    it.reference = octets_of("a");
    expect(refuses(ask(it, ROOM), EDICHECK_BAD_STAMP, 0), "a bad stamp before a bad reference");
    it.more = contrl.more;
    expect(refuses(ask(it, ROOM), EDICHECK_BAD_REFERENCE, 0), "a reference with a small letter");
    it = contrl;
    it.text.length = 0;
    expect(refuses(ask(it, ROOM), EDICHECK_NO_UNB, 0), "a text without UNB");
    it.text = octets_of("UNB'");
    expect(refuses(ask(it, ROOM), EDICHECK_BAD_UNB, 0), "a text whose UNB tells nothing");

    it = replies;
    it.more = octets_of("errors\nnothing\n");
    struct found found = ask(it, ROOM);
    expect(found.code == EDICHECK_BAD_SCRIPT && has(found, "errors 2\n") && has(found, "fault script 2 line\n")
        && is_untouched(found, found.needed), "a script with a bad line");
    expect(refuses(ask(it, found.needed - 1), EDICHECK_NO_ROOM, found.needed), "the same without room");
    free(spoiled);
    free(spaces);
}

/* Refuses each allocation of a call, alone or with all that follow, until a call needs no more of them. Some are for speed alone, or
 * give room back: a
 * call may do without one of these, and give the whole answer. */
static void try_refusals(struct call it, bool all, struct octets due, const char *what) {
    long tried = 0, spared = 0;
    for (;;) {
        asked = 0, first = tried + 1, last = all ? 1 << 30 : first;
        struct found found = ask(it, ROOM);
        bool is_spared = asked < first;
        asked = 0, first = last = 0;
        expect(blocks == 0, what);
        if (is_spared) {
            expect(gives(found, EDICHECK_DONE, due), what);
            break;
        }
        bool is_whole = !all && gives(found, EDICHECK_DONE, due);
        bool is_reply = it.kind == 's' && found.code == EDICHECK_DONE && has(found, "no memory\n");
        expect(is_whole || is_reply || refuses(found, EDICHECK_NO_MEMORY, 0), what);
        spared += is_whole;
        tried++;
    }
    expect(tried > 10 && spared < tried / 5, what);
    printf("%s: each of %ld allocations refused %s, %ld of them with the whole answer\n", what, tried,
           all ? "with all that follow" : "alone", spared);
}

/* What a handle comes to, which keeps the text: each question, edits, each code, and each allocation refused. */
static struct octets kept(edicheck_handle *handle, char kind, uint32_t due, const char *what) {
    static uint8_t out[ROOM];
    size_t needed = 12345;
    struct octets stamp = octets_of("960105:0930"), reference = octets_of("A1");
    uint32_t code = kind == 'e' ? edicheck_kept_errors(handle, out, ROOM, &needed)
        : kind == 't' ? edicheck_kept_tree(handle, out, ROOM, &needed)
        : kind == 'x' ? edicheck_kept_text(handle, out, ROOM, &needed)
        : edicheck_kept_contrl(handle, stamp.at, stamp.length, reference.at, reference.length, out, ROOM, &needed);
    expect(code == due, what);
    return (struct octets){out, needed};
}

static bool is_same(struct octets a, struct octets b) { return a.length == b.length && memcmp(a.at, b.at, a.length) == 0; }

static void try_handles(const struct octets *dues) {
    edicheck_handle directory = {0}, handle = {0};
    size_t number = 12345;
    expect(edicheck_close(&handle) == EDICHECK_CLOSED, "a handle that begins closed");
    kept(&handle, 'e', EDICHECK_CLOSED, "errors of a closed handle");
    expect(edicheck_replace(&handle, 0, 0, text.at, 0, &number) == EDICHECK_CLOSED && number == 0, "an edit of a closed handle");
    expect(edicheck_open_beside(&handle, &directory, text.at, text.length, &number) == EDICHECK_CLOSED, "beside a closed handle");
    expect(edicheck_open(&directory, store.at, store.length, text.at, 0, &number) == EDICHECK_DONE && number == 0, "a directory");
    long of_directory = blocks;
    for (long tried = 0, code = EDICHECK_NO_MEMORY; code != EDICHECK_DONE; tried++) {
        asked = 0, first = tried + 1, last = 1 << 30;
        code = edicheck_open_beside(&handle, &directory, text.at, text.length, &number);
        asked = 0, first = last = 0;
        expect(code == EDICHECK_DONE || (code == EDICHECK_NO_MEMORY && blocks == of_directory && handle.at == NULL), "an opening");
    }
    expect(number == text.length, "the length of the text");
    for (int i = 0; i < 3; i++) expect(is_same(kept(&handle, "etc"[i], EDICHECK_DONE, "a question"), dues[i]), "an answer");
    expect(is_same(kept(&handle, 'x', EDICHECK_DONE, "the text"), text), "the text as it was");
    expect(edicheck_replace(&handle, text.length, 1, text.at, 0, &number) == EDICHECK_NO_RANGE && number == 0, "past the end");
    uint8_t *spaces = malloc(LIMIT);
    memset(spaces, ' ', LIMIT);
    expect(edicheck_replace(&handle, 0, 0, spaces, LIMIT, &number) == EDICHECK_TOO_LONG && number == 0, "a text over the limit");
    free(spaces);
    for (long tried = 0, code = EDICHECK_NO_MEMORY; code != EDICHECK_DONE; tried++) {
        asked = 0, first = tried + 1, last = 1 << 30;
        code = edicheck_replace(&handle, 0, text.length, text.at, 9, &number);
        asked = 0, first = last = 0;
        if (code != EDICHECK_DONE) {
            expect(code == EDICHECK_NO_MEMORY && number == 0, "an edit without memory");
            expect(is_same(kept(&handle, 'x', EDICHECK_DONE, "the text"), text), "the text after an edit without memory");
        }
    }
    expect(number == 9 && is_same(kept(&handle, 'x', EDICHECK_DONE, "the text"), (struct octets){text.at, 9}), "an edited text");
    expect(edicheck_close(&handle) == EDICHECK_DONE && handle.at == NULL && blocks == of_directory, "nothing is left of a text");
    for (int i = 0; i < 1000; i++)
        if (edicheck_open_beside(&handle, &directory, text.at, text.length, &number) != EDICHECK_DONE) failed++;
    expect(edicheck_close(&handle) == EDICHECK_DONE && blocks == of_directory, "texts one after the other in one handle");
    expect(edicheck_close(&directory) == EDICHECK_DONE, "a directory's handle");
    printf("handles: %ld blocks are left of one directory\n", (long)blocks);
    blocks = 0;
}

static void try_many(struct call it, struct octets due) {
    struct rusage before, after;
    bool well = true;
    getrusage(RUSAGE_SELF, &before);
    for (int i = 0; i < CALLS; i++) well = well && gives(ask(it, 1024), EDICHECK_DONE, due) && blocks == 0;
    getrusage(RUSAGE_SELF, &after);
    expect(well, "many calls");
    expect(after.ru_maxrss - before.ru_maxrss < 1024, "many calls take no more memory than one");
    printf("%d calls: %ld KiB more than one takes\n", CALLS, after.ru_maxrss - before.ru_maxrss);
}

static struct call calls[4];
static struct octets dues[4];

static void *of_a_thread(void *well) {
    for (int i = 0; i < CALLS_OF_A_THREAD; i++)
        if (!gives(ask(calls[i % 4], ROOM), EDICHECK_DONE, dues[i % 4])) *(bool *)well = false;
    return NULL;
}

static void try_threads(void) {
    pthread_t threads[THREADS];
    bool well[THREADS];
    for (int i = 0; i < THREADS; i++) {
        well[i] = true;
        if (pthread_create(&threads[i], NULL, of_a_thread, &well[i])) { perror("a thread"); exit(2); }
    }
    for (int i = 0; i < THREADS; i++) {
        pthread_join(threads[i], NULL);
        expect(well[i], "calls of many threads");
    }
    expect(blocks == 0, "nothing is left by many threads");
}

int main(int count, char **words) {
    static const char *const names[] = {"errors", "tree", "contrl", "script"};
    if (count != 8) { fputs("embedding STORE TEXT ERRORS TREE CONTRL SCRIPT REPLIES\n", stderr); return 2; }
    store = read_file(words[1]), text = read_file(words[2]), script = read_file(words[6]);
    const int from[] = {3, 4, 5, 7};
    for (int i = 0; i < 4; i++) {
        calls[i] = (struct call){"etcs"[i], store, text, i == 3 ? script : octets_of("960105:0930"), octets_of("A1")};
        dues[i] = read_file(words[from[i]]);
        try_rooms(calls[i], dues[i], names[i]);
    }
    try_codes(calls[0], calls[2], calls[3]);
    for (int i = 0; i < 4; i++) {
        try_refusals(calls[i], false, dues[i], names[i]);
        try_refusals(calls[i], true, dues[i], names[i]);
    }
    try_many(calls[0], dues[0]);
    try_threads();
    try_handles(dues);
    printf("%d passed, %d failed\n", passed, failed);
    return failed != 0;
}
