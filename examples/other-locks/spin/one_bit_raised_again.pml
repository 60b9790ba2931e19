/* The one-bit lock (Burns and Lynch 1993; Lamport 1986b) for two processes. This form writes its raised flag once more before it
   enters. With -DONCE it does not: that is the published lock. */
#define BITS 1
#include "bits.h"
#define FLAG 0
#define RAISE(FIRST, LAST) WRITE(FLAG, flag, 1, FIRST, LAST)
#define LOWER(FIRST, LAST) WRITE(FLAG, flag, 0, FIRST, LAST)
#ifdef ONCE
#define GOES_IN enters()
#define AGAIN
#else
#define GOES_IN skip
#define AGAIN RAISE(skip, enters());
#endif

active proctype process0() {
  byte calls;
  do
  :: CALL;
     RAISE(begins(), waits());
look:
     READ(FLAG, flag, skip, GOES_IN, goto look);
     AGAIN
     LOWER(leaves(), answers())
  :: calls == CALLS -> break
  od
}

/* It gives way: it lowers its flag until that of process 0 is down, and then begins anew, still in the doorway it had. */
active proctype process1() {
  byte calls;
  do
  :: CALL;
     RAISE(begins(), waits());
look:
     READ(FLAG, flag, skip, GOES_IN; goto through, skip);
     LOWER(skip, skip);
gives_way:
     READ(FLAG, flag, skip, skip, goto gives_way);
     RAISE(skip, skip);
     goto look;
through:
     AGAIN
     LOWER(leaves(), answers())
  :: calls == CALLS -> break
  od
}
