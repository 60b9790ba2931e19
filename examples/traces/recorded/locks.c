/* Three locks, of which two also have a broken form. */
#include "recorder.h"

/* The ticket lock (Reed and Kanodia 1979): the doorway draws a number, and numbers enter in their order. */
static struct cell next = {"next", 0}, serving = {"serving", 0};

static void await_turn(uint32_t ticket) {
  mark("wait");
  while (get(&serving) != ticket) {
  }
}

static void ticket_acquire(unsigned me, unsigned threads) { await_turn(add(&next, 1)); }

/* Broken: two threads may read the same number before either writes the next one. */
static void torn_acquire(unsigned me, unsigned threads) {
  uint32_t ticket = get(&next);
  set(&next, ticket + 1);
  await_turn(ticket);
}

static void ticket_release(unsigned me, unsigned threads) { set(&serving, get(&serving) + 1); }

/* The one-bit lock (Burns and Lynch 1993; Lamport 1986b): the thread with the higher number gives way. It promises no order, so it
   has no mark `wait`. */
static struct cell flag[16] = {{"flag[0]", 0},  {"flag[1]", 0},  {"flag[2]", 0},  {"flag[3]", 0}, {"flag[4]", 0},  {"flag[5]", 0},
                               {"flag[6]", 0},  {"flag[7]", 0},  {"flag[8]", 0},  {"flag[9]", 0}, {"flag[10]", 0}, {"flag[11]", 0},
                               {"flag[12]", 0}, {"flag[13]", 0}, {"flag[14]", 0}, {"flag[15]", 0}};

/* Waits for each flag from this number to before that one until it is lowered. */
static void await_flags(unsigned first, unsigned end) {
  for (unsigned other = first; other < end; other++)
    while (get(&flag[other])) {
    }
}

/* Returns whether a lower flag is raised. */
static int is_lower_raised(unsigned me) {
  for (unsigned other = 0; other < me; other++)
    if (get(&flag[other])) return 1;
  return 0;
}

static void flag_acquire(unsigned me, unsigned threads) {
  set(&flag[me], 1);
  while (is_lower_raised(me)) {
    set(&flag[me], 0);
    await_flags(0, me);
    set(&flag[me], 1);
  }
  await_flags(me + 1, threads);
}

/* Broken: it looks first and raises its flag afterwards, so two threads may both see no flag. */
static void late_acquire(unsigned me, unsigned threads) {
  await_flags(0, me);
  await_flags(me + 1, threads);
  set(&flag[me], 1);
}

static void flag_release(unsigned me, unsigned threads) { set(&flag[me], 0); }

/* A spin lock: 0, or the number of the thread that holds it plus 1. It promises no order. */
static struct cell holder = {"holder", 0};

static void spin_acquire(unsigned me, unsigned threads) {
  while (cas(&holder, 0, me + 1) != 0) {
  }
}

static void spin_release(unsigned me, unsigned threads) { swap(&holder, 0); }

#define TICKETS "shared next 32\nshared serving 32\n"
#define FLAGS "register flag 1\n"
#define HOLDER "shared holder 5\n"

const struct lock locks[] = {
    {"ticket", TICKETS, ticket_acquire, ticket_release},
    {"torn-ticket", TICKETS, torn_acquire, ticket_release},
    {"flag", FLAGS, flag_acquire, flag_release},
    {"late-flag", FLAGS, late_acquire, flag_release},
    {"spin", HOLDER, spin_acquire, spin_release},
    {0},
};
