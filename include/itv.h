/* itv as a library: each of its commands, over files in memory.
 *
 * What a command writes, and the status that it ends with, are those of the program itv of the same
 * version over files with these paths and contents; docs/library.md says what is proved of that.
 *
 * Nothing is kept between two calls, and no file, clock, environment variable or network is
 * reached. A call allocates by malloc and realloc, and frees by free what it allocated before it
 * returns. Calls in several threads may run at once, if those three functions allow it. Do not call
 * from a signal handler, nor in the child of a fork of a process with threads.
 *
 * No pointer may be null, even where a length is 0, and what is written must overlap nothing else.
 * Nothing that is handed over is kept or freed.
 */
#ifndef ITV_H
#define ITV_H

#include <stddef.h>
#include <stdint.h>

#ifdef __cplusplus
extern "C" {
#endif

/* How a command ended. */
enum itv_status {
    /* What was asked holds: verify accepts the delivery. */
    ITV_GOOD = 0,
    /* What was asked does not hold: verify refuses the delivery. */
    ITV_REFUSED = 1,
    /* The command did not run, or stopped. The notes say why. */
    ITV_STOPPED = 2,
    /* The same, since memory was refused. */
    ITV_NO_MEMORY = 3
};

/* How many bytes the texts of a run have. */
struct itv_lengths {
    size_t output;
    size_t notes;
};

/* Runs a command over files in memory, and returns its status, a value of itv_status.
 *
 * words     the words of the command, without the program's name, each ended by a zero byte, as in
 *           "check\0--layout\0layout.json\0": words_length bytes in UTF-8, the zero bytes included.
 * paths     the paths of the files, each ended by a zero byte: paths_length bytes in UTF-8. A path
 *           is names with a slash between them, as in "links/build.link". A folder is what lies
 *           below it. Paths in words are compared with these byte by byte.
 * sizes     how many bytes each file has, in the order of the paths: sizes_count numbers.
 * contents  the bytes of the files, one file after the other: contents_length bytes, which is the
 *           sum of the sizes.
 * output    room for what the program writes to standard output: output_room bytes.
 * notes     room for what the program writes to standard error: notes_room bytes.
 * lengths   is set to how long both texts are. Where one is longer than its room, its first bytes
 *           are in the room and the rest is left out: call again with more room.
 *
 * No zero byte is added to a text. Bytes of a room after its text stay as they were. Where the status
 * is ITV_STOPPED or ITV_NO_MEMORY, the output is empty, but for digest, which may have written the
 * lines of earlier files, and for verify --strict --json=2, which writes what it found. Without
 * memory the notes may be empty too.
 *
 * The status is ITV_STOPPED, and the notes say why, also where words or paths are not UTF-8, the
 * last of them is not ended by a zero byte, paths, sizes and contents do not go together, two files
 * have one path, a part of a path is empty, or a file lies below a file.
 */
uint8_t itv_run(const char *words, size_t words_length,
                const char *paths, size_t paths_length,
                const size_t *sizes, size_t sizes_count,
                const uint8_t *contents, size_t contents_length,
                uint8_t *output, size_t output_room,
                uint8_t *notes, size_t notes_room,
                struct itv_lengths *lengths);

/* The name and the version, as in "itv 1.1.0": writes as much of it to the output as there is room
 * for, without a zero byte, and returns how many bytes it has. */
size_t itv_version(char *output, size_t output_room);

#ifdef __cplusplus
}
#endif

#endif
