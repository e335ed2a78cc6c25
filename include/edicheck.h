/* The calls of the static library `edicheck_c`. docs/EMBEDDING.md tells how it is built, linked and called.
 *
 * Octets that go in are told as a pointer and a length. The answer is put into a buffer of the caller, `out`, with room for
 * `room` octets. A call takes a store (what `edicheck compile MANIFEST` prints), and so knows no directory of files.
 *
 * Who owns what: each buffer is the caller's. The library writes to `out`, `*needed`, `*number` and handles alone, and keeps no
 * pointer after the call. What a handle keeps is the library's. Calls without a handle keep nothing, so they may run on any threads
 * at once.
 *
 * What the caller owes, and nothing checks: each pointer is to as many octets as are told, and is never null, not even where
 * there are none; `out`, `needed`, `number` and handles overlap nothing else; no call is made by a signal handler, or by the forked
 * child of a process with threads. For handles see below.
 *
 * What the program that links it supplies: `memcpy`, `memmove` and `memset` of a C library, and the heap, `rattle_alloc`,
 * `rattle_realloc` and `rattle_dealloc`. liblibc_c.a of the kit has these three over `malloc`, `realloc` and `free`.
 */
#ifndef EDICHECK_H
#define EDICHECK_H

#include <stddef.h>
#include <stdint.h>

#ifdef __cplusplus
extern "C" {
#endif

/* What a call answers. Of several codes that are due the first in the order of the comments (0) to (7) comes. EDICHECK_NO_MEMORY
 * may come in the place of any, and nothing is put then. */
enum {
    EDICHECK_DONE = 0,          /* the whole answer is in front of `out`; `*needed` is its length */
    EDICHECK_NO_MEMORY = 1,     /* memory was refused */
    EDICHECK_TOO_LONG = 2,      /* (1) the store, the text or the script has over 4,194,304 octets */
    EDICHECK_BAD_STORE = 3,     /* (2) the store breaks a rule; `*needed` is the place of its first fault, in octets from 0 */
    EDICHECK_NO_ROOM = 4,       /* (7) `out` is too small, and is as it was; `*needed` is the room that the answer takes */
    EDICHECK_BAD_STAMP = 5,     /* (3) the stamp isn't `YYMMDD:HHMM` */
    EDICHECK_BAD_REFERENCE = 6, /* (4) the reference isn't 1 to 14 octets of `A` to `Z` and `0` to `9` */
    EDICHECK_NO_UNB = 7,        /* (5) the text has no UNB, so nobody can be answered */
    EDICHECK_BAD_UNB = 8,       /* (5) what the UNB tells can't be answered */
    EDICHECK_BAD_SCRIPT = 9,    /* (6) the script breaks its grammar; the replies up to there are in front of `out`, with the line
                                   that tells why it stopped, and `*needed` is their length */
    EDICHECK_CLOSED = 10,       /* (0) the handle is closed */
    EDICHECK_NO_RANGE = 11      /* (1) the edit reaches past the end of the text */
};
/* Where nothing else is said of it, `*needed` is 0. What is after the answer in `out` is as it was. */

/* The printed errors of a text, which are the first part of what `edicheck check` prints. */
uint32_t edicheck_errors(const uint8_t *store, size_t store_length, const uint8_t *text, size_t text_length,
                         uint8_t *out, size_t room, size_t *needed);

/* The printed tree of a text, which is the rest of what `edicheck check` prints. */
uint32_t edicheck_tree(const uint8_t *store, size_t store_length, const uint8_t *text, size_t text_length,
                       uint8_t *out, size_t room, size_t *needed);

/* The acknowledgement of a text, a CONTRL message, made at the time that `stamp` tells, with the reference `reference`. */
uint32_t edicheck_contrl(const uint8_t *store, size_t store_length, const uint8_t *text, size_t text_length,
                         const uint8_t *stamp, size_t stamp_length, const uint8_t *reference, size_t reference_length,
                         uint8_t *out, size_t room, size_t *needed);

/* The replies to a script of commands on a text, as `edicheck edit` puts them; docs/COMMANDS.md has the commands. Where memory
 * is refused for a command, its reply may be `no memory`, and the code is EDICHECK_DONE still. */
uint32_t edicheck_script(const uint8_t *store, size_t store_length, const uint8_t *text, size_t text_length,
                         const uint8_t *script, size_t script_length, uint8_t *out, size_t room, size_t *needed);

/* A handle keeps a text, which was read by a directory. `edicheck_handle handle = {0};` is one that is closed. It belongs to the
 * caller, who never writes to it, nor copies it, passes it to one call at a time, and all handles that were opened beside each other
 * to calls on one thread alone. A handle that isn't closed at the end is memory that isn't given back. */
typedef struct { void *at; } edicheck_handle;

/* Has a handle keep a text, read by the directory that the store spells; `*number` is the length of the text, or the place of the
 * fault of the store. Each call that is given a good store takes the memory of its directory for ever, so a program opens a store
 * once, with an empty text say, and more texts beside that. After any code but EDICHECK_DONE the handle is as it was; else what it
 * kept before is let go. */
uint32_t edicheck_open(edicheck_handle *handle, const uint8_t *store, size_t store_length, const uint8_t *text, size_t text_length,
                       size_t *number);

/* Has a handle keep a text, read by the directory of what another one keeps, which stays as it is. The two are never the same. */
uint32_t edicheck_open_beside(edicheck_handle *handle, edicheck_handle *beside, const uint8_t *text, size_t text_length,
                              size_t *number);

/* Puts octets in place of the `cut` octets from the place `at` on; `*number` is the new length of the text. EDICHECK_TOO_LONG says
 * that the text would have over 4,194,304 octets. After any code but EDICHECK_DONE the handle is as it was. It reads what it
 * touches, as `replace` of `edicheck edit` does. */
uint32_t edicheck_replace(edicheck_handle *handle, uint64_t at, uint64_t cut, const uint8_t *put, size_t put_length, size_t *number);

/* What the calls above print, of the text that a handle keeps, and the text itself. The handle is as it was. */
uint32_t edicheck_kept_errors(edicheck_handle *handle, uint8_t *out, size_t room, size_t *needed);
uint32_t edicheck_kept_tree(edicheck_handle *handle, uint8_t *out, size_t room, size_t *needed);
uint32_t edicheck_kept_contrl(edicheck_handle *handle, const uint8_t *stamp, size_t stamp_length, const uint8_t *reference,
                              size_t reference_length, uint8_t *out, size_t room, size_t *needed);
uint32_t edicheck_kept_text(edicheck_handle *handle, uint8_t *out, size_t room, size_t *needed);

/* Lets go of what a handle keeps, and closes it: EDICHECK_DONE, or EDICHECK_CLOSED if it was closed. It asks no memory. */
uint32_t edicheck_close(edicheck_handle *handle);

#ifdef __cplusplus
}
#endif

#endif
