/* The test of the live judge. */
#ifndef LIVE_H
#define LIVE_H

/* Wrong lengths, states that were never reached, and every stream of a file that `second streams` has written. How many streams there
 * were; 0 where an answer was never due, which is said. */
unsigned long try_live(const char *path);

#endif
