/* The bakery lock (Lamport 1974) for two processes, with tickets of one bit or of two (-DT=2); with -DNOCHOOSING without its
   choosing bit. */
#ifndef T
#define T 1
#endif
#define BITS (1 + T)
#include "bits.h"
#define CHOOSING 0
#define TICKET 1
#define TOP ((1 << T) - 1)

/* A ticket is read and written from its lowest bit on. */
#if T == 1
#define READ_TICKET(FIRST, LAST) READ(TICKET, ticket0, it = 0; FIRST, LAST, it = 1; LAST)
#define WRITE_TICKET(x, FIRST, LAST) WRITE(TICKET, ticket0, x, FIRST, LAST)
#else
#define READ_TICKET(FIRST, LAST) \
  READ(TICKET, ticket0, it = 0; FIRST, skip, it = 1); \
  READ(TICKET + 1, ticket1, skip, LAST, it = it + 2; LAST)
#define WRITE_TICKET(x, FIRST, LAST) \
  WRITE(TICKET, ticket0, (x) & 1, FIRST, skip); \
  WRITE(TICKET + 1, ticket1, (x) >> 1, skip, LAST)
#endif
#define IS_FIRST (it == 0 || own < it || own == it && ME < HE)

active [2] proctype process() {
  byte calls, it, own;
  do
  :: CALL;
#ifdef NOCHOOSING
     READ_TICKET(begins(), if :: it == TOP -> answers(); goto answered :: else -> own = it + 1 fi);
     WRITE_TICKET(own, skip, waits());
#else
     WRITE(CHOOSING, choosing, 1, begins(), skip);
     READ_TICKET(skip, own = it + 1);
     if
     :: own > TOP -> WRITE(CHOOSING, choosing, 0, skip, answers(); goto answered)
     :: own <= TOP
     fi;
     WRITE_TICKET(own, skip, skip);
     WRITE(CHOOSING, choosing, 0, skip, waits());
chooses:
     READ(CHOOSING, choosing, skip, skip, goto chooses);
#endif
look:
     READ_TICKET(skip, if :: IS_FIRST -> enters() :: else -> goto look fi);
     WRITE_TICKET(0, leaves(), answers());
answered:
     skip
  :: calls == CALLS -> break
  od
}
