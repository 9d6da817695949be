/* ecma for C: programs of ECMAScript are checked, parsed as ESTree, laid out, and taken apart.
 *
 * Each function reads a text, writes its answer into room of yours, as far as it goes there, and says in an
 * `ecma_outcome` what came of it. Nothing lasts from one call to the next: calls may be made from several threads at
 * once. No function writes elsewhere, prints, reads a file, or ends the process; memory comes from `malloc`, and all of
 * it is given back.
 *
 * What you owe, since nothing here can check it:
 * - `text` has `text_len` bytes, `room` has `room_len` bytes that may be written, and `options` and `outcome` are there.
 *   None of them is null, also where a length is 0. `room` and `outcome` overlap nothing else of the call.
 * - No length is above 2^63 - 1.
 * - The thread has stack for the levels that `options` allow, of 14,000 bytes each, and for 256 kB.
 * - No call is made in a signal handler, or in a forked child of a process with threads.
 *
 * Texts are UTF-8, and so are answers. Columns and lines are counted from 1. UTF-16 units are what JavaScript's strings
 * are counted in. A text of 4 GB or more is refused.
 */
#ifndef ECMA_H
#define ECMA_H

#include <stddef.h>
#include <stdint.h>

#ifdef __cplusplus
extern "C" {
#endif

/* What came of a call. */
enum {
    /* All is well. The answer is in the room. */
    ECMA_DONE = 0,
    /* The text has a fault, at the place that the outcome says. `ecma_check` lists it with all others; elsewhere the room
     * has the message, in place of an answer. */
    ECMA_FAULT = 1,
    /* The answer takes `needed` bytes, and the room has its beginning. */
    ECMA_NO_ROOM = 2,
    /* The text isn't UTF-8 from the byte `lo` on. */
    ECMA_NOT_UTF8 = 3,
    /* An option has a value that it may not have. */
    ECMA_BAD_OPTION = 4,
    ECMA_OUT_OF_MEMORY = 5,
    /* The text is nested more deeply than `levels` at the place. The room has a message. */
    ECMA_TOO_DEEP = 6
};

/* What a text is read as. */
enum {
    /* What it is: a script, or else a module, or else a CommonJS module. */
    ECMA_ANY = 0,
    ECMA_SCRIPT = 1,
    ECMA_MODULE = 2,
    ECMA_COMMONJS = 3
};

/* What trees have beside their nodes: any sum of these. */
enum {
    /* `loc`: lines, and columns counted from 0, as ESTree has them. */
    ECMA_LOC = 1,
    /* `range`: `start` and `end` as a pair. */
    ECMA_RANGE = 2,
    /* `comments` of the program, as acorn's `onComment` gives them. */
    ECMA_COMMENTS = 4,
    /* `tokens` of the program, as ESLint's parser lists them. */
    ECMA_TOKENS = 8
};

/* Where a comma is after the last item of a list whose closing bracket begins a line. */
enum {
    /* Wherever one may be. */
    ECMA_COMMAS_ALL = 0,
    /* Not in arguments and parameters. */
    ECMA_COMMAS_LISTS = 1,
    ECMA_COMMAS_NONE = 2
};

/* What is asked for. Options that are all 0 are the usual ones. */
typedef struct {
    /* What the text is read as: `ECMA_ANY`, .. */
    uint32_t goal;
    /* How deeply expressions may be nested; 0 is 200, for which 3 MB of stack are enough. */
    uint32_t levels;
    /* `ecma_estree`: a sum of `ECMA_LOC`, .. */
    uint32_t extras;
    /* `ecma_check`: how many findings are listed; 0 is all. */
    uint32_t most;
    /* `ecma_format`: how wide lines may be, from 20 to 1000; 0 is 80. */
    uint32_t width;
    /* `ecma_format`: by how many columns lines are indented more, at most 16; 0 is 2. */
    uint32_t indent;
    /* `ecma_format`: `ECMA_COMMAS_ALL`, .. */
    uint32_t commas;
} ecma_options;

/* What came of a call. Numbers of a place are 0 where there is none. */
typedef struct {
    /* `ECMA_DONE`, .. */
    uint32_t status;
    /* What the text was read as: `ECMA_SCRIPT`, ..; 0 if it wasn't read. */
    uint32_t goal;
    /* How many bytes the whole answer takes, or the message; there is no 0 byte after it. */
    size_t needed;
    /* The place of the (first) fault, in bytes of the text: from `lo` up to `hi`. */
    uint32_t lo, hi;
    /* The same place, in UTF-16 units. */
    uint32_t start, end;
    /* Its line, and its column in UTF-16 units. */
    uint32_t line, column;
} ecma_outcome;

/* Writes which version this is. Answers how many bytes that takes. */
size_t ecma_version(uint8_t *room, size_t room_len);

/* Lists what is wrong with a program, early errors too, in the order of the text, as JSON: `[]`, or objects with `start`,
 * `end` (UTF-16 units), `line`, `column`, `endLine`, `endColumn` and `message`; and `firstLine` and `firstColumn` where
 * another place is told, as that of an earlier declaration. `ECMA_FAULT` if it lists any; if it also takes more room
 * than there is, `needed` tells. */
void ecma_check(const uint8_t *text, size_t text_len, const ecma_options *options, uint8_t *room, size_t room_len,
                ecma_outcome *outcome);

/* Writes the tree of a program as JSON, as `JSON.stringify` writes acorn's tree. A program that has an early error has a
 * fault. */
void ecma_estree(const uint8_t *text, size_t text_len, const ecma_options *options, uint8_t *room, size_t room_len,
                 ecma_outcome *outcome);

/* Writes a program in its layout, which has the same tree. */
void ecma_format(const uint8_t *text, size_t text_len, const ecma_options *options, uint8_t *room, size_t room_len,
                 ecma_outcome *outcome);

/* Lists the names of a program, as JSON objects with `name`, `start`, `end`, `use` (bound, read, written, ..) and
 * `binding`: the place where it is bound, as a pair, or null. */
void ecma_names(const uint8_t *text, size_t text_len, const ecma_options *options, uint8_t *room, size_t room_len,
                ecma_outcome *outcome);

/* Lists the tokens of a text, as JSON objects with `type` (word, string, template, number, bigint, regexp, sign),
 * `start`, `end` and `text`. With `ECMA_ANY` they are those of a script. */
void ecma_tokens(const uint8_t *text, size_t text_len, const ecma_options *options, uint8_t *room, size_t room_len,
                 ecma_outcome *outcome);

#ifdef __cplusplus
}
#endif

#endif
