/* What was asked, what was gone through, and the verdict, on standard output. */
#ifndef EXPLORE_REPORT_H
#define EXPLORE_REPORT_H

#include "explore/engine.h"

/* Before the search, and after it. */
void report_question(const struct explorer *explorer);
void report_outcome(const struct explorer *explorer, double seconds);

#endif
