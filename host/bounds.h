/* The bounds of a geometry in words, and those from which on no log fills up. */
#ifndef BOUNDS_H
#define BOUNDS_H

#include "call.h"
#include "message.h"

/* Whether the volume takes a geometry; if not, a message names the number that is wrong, as the option that gives it, and what it may be. */
bool geometry_fits(struct geometry geometry, struct message *message);

/* The fewest sectors that a zone may have on a drive. */
uint32_t least_zone_sectors(struct geometry geometry);

/* The fewest with which no reset, mount or compact is ever refused for a full log, if the host does its duties; and the fewest with which, besides, a compact
 * leaves each host as much of its share as any one write takes of it (docs/USING.md, "Room in the logs"). */
uint32_t least_roomy_zone_sectors(struct geometry geometry);
uint32_t least_sharing_zone_sectors(struct geometry geometry);

/* Whether a write can end inside a stripe at all: a fresh share has room for the smallest entry. */
bool leaves_shares(struct geometry geometry);

#endif
