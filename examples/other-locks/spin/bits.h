/* Safe bits of two processes, each with one writer and one reader, for the models in this folder.

   An access is two steps, its begin and its end. Each step is atomic and prints its entry of a trace. The last argument of a step is
   what else happens at it; a mark prints a line that begins with a colon. A read that a write overlaps may end with either value.
   A run ends at the first entry that breaks a law. With -DLAW=together or -DLAW=overtaken only that law counts. */

#ifndef CALLS
#define CALLS 2
#endif
#define ME _pid
#define HE (1 - _pid)
#define CELL(owner, at) ((owner) * BITS + (at))

mtype = { choosing, ticket0, ticket1, flag, turn, together, overtaken };

bit value[2 * BITS];      /* what was written last, or is being written */
bit written[2 * BITS];    /* a write is open */
bit being_read[2 * BITS]; /* a read is open */
bit overlapped[2 * BITS]; /* and a write has overlapped it */
byte inside;              /* how many processes are inside */
bit waiting[2];           /* the doorway is over, and the process not yet inside */
bit is_behind[2];         /* the other one waited as this one's doorway began */
mtype broken;             /* the law that was broken */

/* A write of x to bit `at` of this model, whose register has this name. */
#define WRITE(at, name, x, FIRST, LAST) \
  atomic { !broken -> printf("%d %e[%d] write %d\n", ME, name, ME, x); \
           value[CELL(ME, at)] = x; written[CELL(ME, at)] = 1; \
           overlapped[CELL(ME, at)] = being_read[CELL(ME, at)]; FIRST }; \
  atomic { !broken -> printf("%d %e[%d] end\n", ME, name, ME); \
           written[CELL(ME, at)] = 0; LAST }

/* A read of the other's bit: its begin, and its end with x. */
#define BEGIN(at, name, FIRST) \
  atomic { !broken -> printf("%d %e[%d] read\n", ME, name, HE); \
           being_read[CELL(HE, at)] = 1; overlapped[CELL(HE, at)] = written[CELL(HE, at)]; FIRST }
#define GIVES(at, name, x, LAST) \
  atomic { !broken && (overlapped[CELL(HE, at)] || value[CELL(HE, at)] == x) -> \
           printf("%d %e[%d] value %d\n", ME, name, HE, x); \
           being_read[CELL(HE, at)] = 0; overlapped[CELL(HE, at)] = 0; LAST }
#define READ(at, name, FIRST, ZERO, ONE) \
  BEGIN(at, name, FIRST); \
  if \
  :: GIVES(at, name, 0, ZERO) \
  :: GIVES(at, name, 1, ONE) \
  fi

#define CALL atomic { !broken && calls < CALLS -> printf("%d : call\n", ME); calls++ }

inline begins() { is_behind[ME] = waiting[HE] }
inline waits() { printf(": wait\n"); waiting[ME] = 1 }
inline enters() {
  printf(": enter\n");
  if
  :: inside > 0 -> broken = together
  :: inside == 0 && is_behind[ME] -> broken = overtaken
  :: else
  fi;
  inside++; waiting[ME] = 0; is_behind[HE] = 0;
#ifdef LAW
  assert(broken != LAW)
#else
  assert(!broken)
#endif
}
inline leaves() { printf(": leave\n"); inside-- }
inline answers() { printf(": answer\n"); is_behind[ME] = 0 }
