/* Two threads each write a flag and then read the other one, as the lock raise-then-look does. The program counts the rounds in which
   both read 0, first with the relaxed order of C11 and then with the sequentially consistent one. In the first case the count depends on
   the processor and on how the threads meet, and may be 0. In the second case it is 0, by the standard. */
#include <pthread.h>
#include <sched.h>
#include <stdatomic.h>
#include <stdio.h>

enum { ROUNDS = 20000 };

static atomic_int flag[2], reached[2];
static int seen[2], both;
static int is_relaxed;

/* Waits until both threads have come to this point. */
static void meet(int me, int point) {
  atomic_store(&reached[me], point);
  for (int tries = 0; atomic_load(&reached[1 - me]) < point; tries++)
    if (tries > 200) sched_yield();
}

static void raise_then_look(int me) {
  if (is_relaxed) {
    atomic_store_explicit(&flag[me], 1, memory_order_relaxed);
    seen[me] = atomic_load_explicit(&flag[1 - me], memory_order_relaxed);
  } else {
    atomic_store_explicit(&flag[me], 1, memory_order_seq_cst);
    seen[me] = atomic_load_explicit(&flag[1 - me], memory_order_seq_cst);
  }
}

static void *run(void *argument) {
  int me = *(int *)argument;
  for (int point = 1; point <= 3 * ROUNDS; point += 3) {
    meet(me, point);
    raise_then_look(me);
    meet(me, point + 1);
    if (me == 0 && !seen[0] && !seen[1]) both++;
    atomic_store(&flag[me], 0);
    meet(me, point + 2);
  }
  return NULL;
}

/* Makes all rounds with one order, and prints in how many of them both threads read 0. */
static void count(const char *name) {
  static int numbers[2] = {0, 1};
  pthread_t threads[2];
  both = 0;
  for (int me = 0; me < 2; me++) reached[me] = 0;
  for (int me = 0; me < 2; me++) pthread_create(&threads[me], NULL, run, &numbers[me]);
  for (int me = 0; me < 2; me++) pthread_join(threads[me], NULL);
  printf("%s: both read 0 in %d of %d rounds\n", name, both, ROUNDS);
}

int main(void) {
  is_relaxed = 1;
  count("relaxed");
  is_relaxed = 0;
  count("sequentially consistent");
  return 0;
}
