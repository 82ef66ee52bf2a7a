/* monastr.h: the proved decider monastr as a C library, for C99 and C++.
 *
 * One call, monastr_run, does what the program monastr does: it takes the words of a command
 * ("decide" "a.mona") and files in memory, and gives the status, the text that the program would print,
 * and the files that it would write. Nothing of the disk, of the terminal or of the environment is read
 * or changed. docs/EMBEDDING.md is the chapter on it, docs/FORMATS.md says what the commands and the
 * texts are.
 *
 * Threads. Any thread may call, and several may at once. Nothing is shared between calls and nothing is
 * kept from one call to the next: there is no handle, no global state, nothing to set up or to let go.
 * What a call is given to write into (room, written, answer) belongs to that call until it returns.
 * Do not call it from a signal handler, nor in the child of a process with threads between fork and exec.
 *
 * Stack. 512 KiB are enough for the deepest sources and formulas of each form that were tried. A smaller
 * stack is for what is less deep.
 *
 * Memory. A call takes memory by malloc and realloc, and gives all of it back by free before it returns.
 * Where malloc or realloc answers null, the call answers MONASTR_NO_MEMORY.
 *
 * Pointers. No pointer is null, also where its length is 0: give the address of anything then. No memory
 * that is written into (room, written, answer) overlaps what any other pointer of the call leads to.
 */
#ifndef MONASTR_H
#define MONASTR_H

#include <stddef.h>
#include <stdint.h>

#ifdef __cplusplus
extern "C" {
#endif

/* What a call answers. 0 to 3 are the exit statuses of the program, and what the request came to is given
 * with them; with each other answer room and written are as they were. 4 and 5 do not come: files and
 * text in memory do not fail, and where there is no memory for them, that is MONASTR_NO_MEMORY.
 */
enum {
    MONASTR_DONE = 0,       /* what the words asked for is done */
    MONASTR_USAGE = 1,      /* the words are no command; the text is the line of usage */
    MONASTR_REFUSED = 2,    /* refused; the text is the line "NUMBER WORDS.." of the refusal (10 to 46) */
    MONASTR_LIMIT = 3,      /* refused for a limit (50 to 54); the text is the line of the refusal */
    MONASTR_NO_MEMORY = 6,  /* no memory was found */
    MONASTR_LENGTHS = 8,    /* the lengths of the words, or of the files, do not add up to their bytes */
    MONASTR_NOT_TEXT = 9,   /* a word, or the name of a file, is no UTF-8 */
    MONASTR_TOO_LONG = 10   /* what the request came to is longer than the room; answer says what it needs */
};

/* How many bytes the name and the content of a file have. */
struct monastr_file {
    uint64_t name;
    uint64_t content;
};

/* A request. It is only read, and only during the call.
 *
 * words: the words after the program's name, one behind the other with nothing between them, each UTF-8
 * (for instance "decidea.mona"); word_lengths: how many bytes each has (6 and 6); together exactly
 * words_size.
 *
 * files: the name and the content of each file, one behind the other with nothing between them; the name
 * is UTF-8, the content any bytes; file_lengths: how many bytes each has; together exactly files_size.
 * The words and the sources name files by these names, byte for byte: there are no folders, and "a.mona"
 * and "./a.mona" are two names. Of several files with one name the last counts.
 */
struct monastr_request {
    const uint8_t *words;
    size_t words_size;
    const uint64_t *word_lengths;
    size_t word_count;
    const uint8_t *files;
    size_t files_size;
    const struct monastr_file *file_lengths;
    size_t file_count;
};

/* How much the outcome needs; set where the answer is 0 to 3 or MONASTR_TOO_LONG, and else left as it was.
 *
 * text: the bytes of the text. bytes: those of the text, and of the names and contents of the written
 * files. files: how many files were written.
 */
struct monastr_answer {
    uint64_t text;
    uint64_t bytes;
    uint64_t files;
};

/* Does what the words of the request ask, over its files.
 *
 * Where it answers 0 to 3, the first answer->bytes bytes of room are the text, and behind it the name and
 * the content of each written file in the order in which they were written; and the first answer->files
 * items of written are their lengths. The rest of both is as it was. A name that was written twice stands
 * there twice, and the last counts. A request that is refused writes no file.
 *
 * Where it answers MONASTR_TOO_LONG, room_size is less than answer->bytes, or written_count less than
 * answer->files: give at least that much and ask again, and the same request gets the same outcome. The
 * work is done again; to ask once, begin with a room of some KiB, and for a command that writes
 * automaton files with one of some MiB. No room is asked for by room_size and written_count 0.
 */
uint32_t monastr_run(const struct monastr_request *request,
                     uint8_t *room, size_t room_size,
                     struct monastr_file *written, size_t written_count,
                     struct monastr_answer *answer);

#ifdef __cplusplus
}
#endif

#endif
