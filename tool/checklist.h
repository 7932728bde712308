/* The field engineer's checklist over a shelf, printed line by line: what each line looks at, what that catches, and "ok" or what was found. */
#ifndef CHECKLIST_H
#define CHECKLIST_H

#include "driver.h"

/* The answer is that of the look; what it shows is in driver->shown if it finished. False, with a message, where there is no memory for the last line. */
bool print_checklist(const struct driver *driver, uint32_t answer, struct message *message);

/* Of each present drive which physical zones are its logs, their generations and unused sectors, and which is spare. */
void print_logs(const struct driver *driver);

#endif
