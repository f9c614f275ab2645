package dexasm;

/** What the library does with bytes. */
enum Job {
  CHECK,
  LIST,
  ASSEMBLE,
  ALIGN,
  STRIP;

  /** How long an answer is guessed to be; a longer one is asked for again. What no answer fills is never touched. */
  long guess(long length) {
    switch (this) {
      case LIST:
        return 8 * length + 64; // (real files take up to 5)
      case STRIP:
        return length + 64;
      default:
        return 2 * length + 4096;
    }
  }
}
