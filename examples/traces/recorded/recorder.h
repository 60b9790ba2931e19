/* What a lock uses: cells, accesses that are logged, and marks. */
#include <stdint.h>

/* A cell and its name in the trace. */
struct cell {
  const char *name;
  uint32_t value;
};

/* Reads a cell. */
uint32_t get(struct cell *cell);

/* Writes a cell. */
void set(struct cell *cell, uint32_t value);

/* Writes a cell, and returns the value before. */
uint32_t swap(struct cell *cell, uint32_t value);

/* Adds a number to a cell, and returns the value before. */
uint32_t add(struct cell *cell, uint32_t number);

/* Writes a cell if it has the expected value, and returns the value before. */
uint32_t cas(struct cell *cell, uint32_t expected, uint32_t value);

/* Logs a mark. The recorder logs `call`, `enter`, `leave` and `answer`; a lock logs `wait` at the end of its doorway. */
void mark(const char *name);

/* A lock: its name, the lines of its registers in the trace, and its two functions, which get the number of the thread and that of
   all threads. */
struct lock {
  const char *name, *registers;
  void (*acquire)(unsigned me, unsigned threads);
  void (*release)(unsigned me, unsigned threads);
};

/* All locks; the last has no name. */
extern const struct lock locks[];
