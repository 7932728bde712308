/* The chart of what was shown: the moment at which power went against the pointer at which a zone was shown when it was back. */
#ifndef EXPLORE_PICTURE_H
#define EXPLORE_PICTURE_H

#include "explore/engine.h"

/* As SVG, to a file that is closed then. False where it could not be written. */
bool draw_picture(const struct explorer *explorer, FILE *out);

#endif
