/* Runs a lock on threads and prints the trace of its accesses.

       cc -O2 -pthread recorder.c locks.c -o recorder
       ./recorder LOCK [THREADS] [CALLS] [SEED] > run.trace

   Each access is made and logged under one mutex, so the log has one total order. A short random delay follows each entry, so that the
   threads interleave in many ways. The seed fixes the delays and not the run: the system still schedules the threads. */
#include "recorder.h"

#include <pthread.h>
#include <sched.h>
#include <stdarg.h>
#include <stdio.h>
#include <stdlib.h>
#include <string.h>

/* A run ends when it has MOST_ENTRIES, so threads that wait for ever end too. */
enum { MOST_THREADS = 16, MOST_CALLS = 1000, MOST_SEED = 1000000, MOST_ENTRIES = 2000, LONGEST = 64, LONGEST_DELAY = 1000, WORK = 5 };

struct thread {
  pthread_t id;
  unsigned number;
  uint64_t random;
};

static char entries[MOST_ENTRIES][LONGEST];
static unsigned count, threads, calls;
static const struct lock *lock;
static pthread_mutex_t order = PTHREAD_MUTEX_INITIALIZER;
static pthread_barrier_t start;
static _Thread_local struct thread *self;

/* Waits for a short random time. */
static void delay(void) {
  self->random = self->random * 6364136223846793005u + 1442695040888963407u;
  unsigned random = self->random >> 40;
  if (random % 3 == 0) sched_yield();
  for (volatile unsigned turns = random % LONGEST_DELAY; turns > 0; turns--) {
  }
}

/* Begins an entry: no other thread makes an access until it ends. */
static void begin(void) { pthread_mutex_lock(&order); }

/* Ends an entry by its text. If the log is full, the thread ends instead: a trace may end anywhere. */
static void end(const char *text, ...) {
  int is_full = count == MOST_ENTRIES;
  if (!is_full) {
    va_list values;
    va_start(values, text);
    vsnprintf(entries[count++], LONGEST, text, values);
    va_end(values);
  }
  pthread_mutex_unlock(&order);
  if (is_full) pthread_exit(NULL);
  delay();
}

uint32_t get(struct cell *cell) {
  begin();
  uint32_t value = cell->value;
  end("%u %s get %u", self->number, cell->name, value);
  return value;
}

void set(struct cell *cell, uint32_t value) {
  begin();
  cell->value = value;
  end("%u %s set %u", self->number, cell->name, value);
}

uint32_t swap(struct cell *cell, uint32_t value) {
  begin();
  uint32_t before = cell->value;
  cell->value = value;
  end("%u %s swap %u gives %u", self->number, cell->name, value, before);
  return before;
}

uint32_t add(struct cell *cell, uint32_t number) {
  begin();
  uint32_t before = cell->value;
  cell->value = before + number;
  end("%u %s add %u gives %u", self->number, cell->name, number, before);
  return before;
}

uint32_t cas(struct cell *cell, uint32_t expected, uint32_t value) {
  begin();
  uint32_t before = cell->value;
  if (before == expected) cell->value = value;
  end("%u %s cas %u %u gives %u", self->number, cell->name, expected, value, before);
  return before;
}

void mark(const char *name) {
  begin();
  end("%u : %s", self->number, name);
}

/* Makes the calls of one thread. */
static void *run(void *argument) {
  self = argument;
  pthread_barrier_wait(&start);
  for (unsigned call = 0; call < calls; call++) {
    mark("call");
    lock->acquire(self->number, threads);
    mark("enter");
    for (int turns = 0; turns < WORK; turns++) delay(); /* the critical section */
    mark("leave");
    lock->release(self->number, threads);
    mark("answer");
  }
  return NULL;
}

/* Runs all threads to their ends. */
static void run_threads(unsigned seed) {
  struct thread all[MOST_THREADS];
  pthread_barrier_init(&start, NULL, threads);
  for (unsigned number = 0; number < threads; number++) {
    all[number].number = number;
    all[number].random = seed * 1000003ull + number * 7919u + 1;
    if (pthread_create(&all[number].id, NULL, run, &all[number]) != 0) {
      fprintf(stderr, "recorder: thread %u did not start\n", number);
      exit(4);
    }
  }
  for (unsigned number = 0; number < threads; number++) pthread_join(all[number].id, NULL);
}

static void print_trace(void) {
  printf("trace 1\nprocesses %u\nmemory atomic\n%s", threads, lock->registers);
  for (unsigned at = 0; at < count; at++) puts(entries[at]);
}

/* Returns the lock of a name, or NULL. */
static const struct lock *lock_named(const char *name) {
  for (const struct lock *it = locks; it->name; it++)
    if (strcmp(it->name, name) == 0) return it;
  return NULL;
}

static void print_usage(void) {
  fprintf(stderr, "usage: recorder LOCK [THREADS] [CALLS] [SEED]; the locks are");
  for (const struct lock *it = locks; it->name; it++) fprintf(stderr, " %s", it->name);
  fprintf(stderr, "\n");
}

/* Returns the number in a word of the command line. */
static unsigned number_of(const char *word, unsigned least, unsigned most) {
  char *rest;
  unsigned long number = strtoul(word, &rest, 10);
  if (*word == '\0' || *rest != '\0' || number < least || number > most) {
    fprintf(stderr, "recorder: `%s` is not a number from %u to %u\n", word, least, most);
    exit(2);
  }
  return number;
}

int main(int words, char **word) {
  if (words > 1) lock = lock_named(word[1]);
  if (lock == NULL) {
    print_usage();
    return 2;
  }
  threads = words > 2 ? number_of(word[2], 1, MOST_THREADS) : 2;
  calls = words > 3 ? number_of(word[3], 1, MOST_CALLS) : 2;
  run_threads(words > 4 ? number_of(word[4], 0, MOST_SEED) : 1);
  print_trace();
  return 0;
}
