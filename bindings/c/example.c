/* check, list, assemble and strip by libdexasm: reads FILE, does the job, and writes the answer to standard output. Its lines and its
 * status are those of the command dexasm.
 *
 * usage: example check|list|assemble|align|strip FILE     (align is assemble --align)
 */
#include "dexasm.h"

#include <stdio.h>
#include <stdlib.h>
#include <string.h>

struct bytes {
  uint8_t *at;
  size_t length;
};

static int ended(int status, const char *line) {
  fprintf(stderr, "dexasm: %s\n", line);
  return status;
}

/* All of a file; `at` is NULL where it can't be read. */
static struct bytes read_file(const char *path) {
  struct bytes all = {NULL, 0};
  size_t room = 1 << 16;
  FILE *file = fopen(path, "rb");
  if (!file) return all;
  all.at = malloc(room);
  while (all.at) {
    all.length += fread(all.at + all.length, 1, room - all.length, file);
    if (all.length < room) break;
    room *= 2;
    uint8_t *grown = realloc(all.at, room);
    if (!grown) free(all.at);
    all.at = grown;
  }
  if (all.at && ferror(file)) {
    free(all.at);
    all.at = NULL;
  }
  fclose(file);
  return all;
}

/* One call of the library: the job that the word names, into this buffer. */
static dexasm_status call(const char *job, struct bytes given, struct bytes out, size_t *needed, dexasm_fault *fault) {
  if (!strcmp(job, "list")) return dexasm_list(given.at, given.length, out.at, out.length, needed, fault);
  if (!strcmp(job, "strip")) return dexasm_strip(given.at, given.length, out.at, out.length, needed, fault);
  return dexasm_assemble(given.at, given.length, !strcmp(job, "align"), out.at, out.length, needed, fault);
}

/* The job, with a buffer that is made longer if it has to be. */
static int serve(const char *job, struct bytes given) {
  dexasm_fault fault;
  struct bytes out = {NULL, 2 * given.length + 64};
  size_t needed = 0;
  dexasm_status status;
  do {
    uint8_t *grown = realloc(out.at, out.length);
    if (!grown) {
      free(out.at);
      return ended(4, "out of memory");
    }
    out.at = grown;
    if (strcmp(job, "check")) {
      status = call(job, given, out, &needed, &fault);
    } else {
      status = dexasm_check(given.at, given.length, &fault);
      memcpy(out.at, "ok\n", needed = 3);
    }
  } while (status == DEXASM_TOO_SMALL && (out.length = needed));
  int ending = 0;
  if (status == DEXASM_REFUSED) {
    uint8_t name[32];
    size_t length;
    dexasm_fault_name(fault.code, name, sizeof name, &length);
    fprintf(stderr, "dexasm: refused %u %.*s at %llu\n", fault.code, (int)length, (char *)name, (unsigned long long)fault.place);
    ending = 1;
  } else if (status == DEXASM_MEMORY) {
    ending = ended(4, "out of memory");
  } else if (fwrite(out.at, 1, needed, stdout) != needed || fflush(stdout)) {
    ending = ended(3, "cannot write");
  }
  free(out.at);
  return ending;
}

int main(int count, char **words) {
  static const char *const jobs[] = {"check", "list", "assemble", "align", "strip"};
  int known = 0;
  for (size_t i = 0; count == 3 && i < sizeof jobs / sizeof *jobs; i++) known |= !strcmp(words[1], jobs[i]);
  if (!known) return ended(2, "usage: example check|list|assemble|align|strip FILE");
  struct bytes given = read_file(words[2]);
  if (!given.at) return ended(3, "cannot read");
  int status = serve(words[1], given);
  free(given.at);
  return status;
}
