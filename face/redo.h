/* The test of the planner and of the judge of proposals. */
#ifndef REDO_H
#define REDO_H

#include "expected.h"

/* What is to be redone for a log, and every proposal for it. */
void try_redo(const struct expected *e);

/* Whether each answer was due to some call; what was not is said. */
int is_whole_redo(void);

#endif
