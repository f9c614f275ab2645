/* libdexasm: checks, lists, assembles and strips .dex files (Dalvik Executable, version 035).
 *
 * Each call reads bytes of yours and writes into memory of yours. Nothing is kept between calls, what a call takes of the heap (malloc,
 * realloc, free) it gives back, and there is no global state: so threads may call at once, each with memory of its own. Not from a
 * signal handler, nor in a forked child of a process with threads. Calls recurse little, yet give a thread the usual stack.
 *
 * What each call leaves is proved (docs/PROVED.md), for arguments that keep this:
 *   - none is NULL, not even where the length or the capacity is 0;
 *   - align is 0 or 1, as a bool of C is (other languages: one byte);
 *   - after it are as many bytes as the length or the capacity says, and less than 2^63;
 *   - out, needed and fault overlap neither one another nor the bytes that are read, and nobody else writes any of it meanwhile.
 *
 * Hashes begin with a fixed seed here, where the command draws one. So bytes can be made on which dexasm_assemble and dexasm_strip take
 * time that grows with their square: limit the time for those of strangers (docs/MEASURED.md).
 *
 * A call with room for its answer is one call; without, ask with a capacity of 0 (and any pointer but NULL) and call again with
 * *needed: that does the work twice.
 */
#ifndef DEXASM_H
#define DEXASM_H

#include <stdbool.h>
#include <stddef.h>
#include <stdint.h>

#ifdef __cplusplus
extern "C" {
#endif

/* The version that this header belongs to: dexasm_version answers that of the library. */
#define DEXASM_VERSION "0.7.0-dev"

/* How a call ends: 0, 1 and 4 are the exit status of the command dexasm. */
typedef uint32_t dexasm_status;
enum {
  DEXASM_ANSWERED = 0,  /* out[0 .. *needed) is the answer, and after it out is as it was */
  DEXASM_REFUSED = 1,   /* the bytes are refused with *fault; out is as it was, *needed is 0 */
  DEXASM_MEMORY = 4,    /* out of memory: *fault is 255 at 0; out is as it was, *needed is 0 */
  DEXASM_TOO_SMALL = 5  /* the answer has *needed bytes, more than the capacity; out is as it was */
};

/* A rule that is broken: its number, whose name dexasm_fault_name tells, and where: a byte of a file, a line of a listing from 1, or a
 * class of a program from 0; of 80 and 81 how many are needed, of 90 and 255 it is 0 (docs/FORMAT.md). Both are 0 after DEXASM_ANSWERED
 * and DEXASM_TOO_SMALL. */
typedef struct dexasm_fault {
  uint16_t code;
  uint64_t place;
} dexasm_fault;

#if defined(__GNUC__)
#define DEXASM_NO_NULL __attribute__((nonnull))
#else
#define DEXASM_NO_NULL
#endif

/* Whether the bytes are a file. It ends with DEXASM_ANSWERED, DEXASM_REFUSED or DEXASM_MEMORY. */
dexasm_status dexasm_check(const uint8_t *bytes, size_t length, dexasm_fault *fault) DEXASM_NO_NULL;

/* The listing of a file's program. */
dexasm_status dexasm_list(const uint8_t *bytes, size_t length, uint8_t *out, size_t capacity, size_t *needed,
                          dexasm_fault *fault) DEXASM_NO_NULL;

/* The file of a listed program. With align a nop is put before each payload that would stand at an odd address. */
dexasm_status dexasm_assemble(const uint8_t *text, size_t length, bool align, uint8_t *out, size_t capacity, size_t *needed,
                              dexasm_fault *fault) DEXASM_NO_NULL;

/* A file's program, written again without what it doesn't need. */
dexasm_status dexasm_strip(const uint8_t *bytes, size_t length, uint8_t *out, size_t capacity, size_t *needed,
                           dexasm_fault *fault) DEXASM_NO_NULL;

/* The name of a fault's number, "Unknown" for a number that has none: ASCII, at most 32 bytes, without a zero after it. It ends with
 * DEXASM_ANSWERED or DEXASM_TOO_SMALL. */
dexasm_status dexasm_fault_name(uint16_t code, uint8_t *out, size_t capacity, size_t *needed) DEXASM_NO_NULL;

/* The version of the library, as "0.7.0": the same. */
dexasm_status dexasm_version(uint8_t *out, size_t capacity, size_t *needed) DEXASM_NO_NULL;

#ifdef __cplusplus
}
#endif

#endif
