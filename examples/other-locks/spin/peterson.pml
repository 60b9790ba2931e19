/* The lock of Peterson (1981) for two processes, in atomic memory: each access is one step and one entry of a trace. With -DTURNFIRST a
   process writes the turn before its flag. */
#ifndef CALLS
#define CALLS 2
#endif
#define ME _pid
#define HE (1 - _pid)

bit flag[2]; /* a register, with a cell for each process */
bit turn;    /* shared */
byte inside; /* how many processes are inside; no access of the lock */

#define RAISE atomic { flag[ME] = 1; printf("%d flag[%d] set 1\n", ME, ME) }
#define YIELD_TURN atomic { turn = HE; printf("%d turn set %d\n", ME, HE) }

/* Reads a variable, and goes on if it has this value. */
#define READ_FLAG(x) flag[HE] == x -> printf("%d flag[%d] get %d\n", ME, HE, x)
#define READ_TURN(x) turn == x -> printf("%d turn get %d\n", ME, x)

inline enters() { printf(": enter\n"); inside++; assert(inside == 1) }

active [2] proctype process() {
  byte calls;
  do
  :: atomic { calls < CALLS -> calls++; printf("%d : call\n", ME) };
#ifdef TURNFIRST
     YIELD_TURN;
     RAISE;
#else
     RAISE;
     YIELD_TURN;
#endif
look:
     if
     :: atomic { READ_FLAG(0); enters(); goto section }
     :: atomic { READ_FLAG(1) }
     fi;
     if
     :: atomic { READ_TURN(ME); enters() }
     :: atomic { READ_TURN(HE); goto look }
     fi;
section:
     atomic { inside--; flag[ME] = 0; printf("%d flag[%d] set 0\n: leave\n: answer\n", ME, ME) }
  :: calls == CALLS -> break
  od
}
