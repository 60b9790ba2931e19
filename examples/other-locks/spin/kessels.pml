/* The lock of Kessels (1982) for two processes: Peterson's, whose turn has a bit of each. It was made for bits whose accesses never
   overlap. */
#define BITS 2
#include "bits.h"
#define FLAG 0
#define TURN 1

active [2] proctype process() {
  byte calls;
  bit own;
  do
  :: CALL;
     WRITE(FLAG, flag, 1, begins(), skip);
     READ(TURN, turn, skip, own = ME, own = 1 - ME);
     WRITE(TURN, turn, own, skip, waits());
look:
     READ(FLAG, flag, skip, enters(); goto section, skip);
     /* 0 goes in while the turns differ, 1 while they are alike */
     READ(TURN, turn, skip, if :: own != ME -> enters() :: else -> goto look fi, if :: own == ME -> enters() :: else -> goto look fi);
section:
     WRITE(FLAG, flag, 0, leaves(), answers())
  :: calls == CALLS -> break
  od
}
