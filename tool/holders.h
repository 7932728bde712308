/* Two hosts on one shelf, told: who holds which zones open, how many are open, and what is left of each host's share of each drive's parity log. */
#ifndef HOLDERS_H
#define HOLDERS_H

#include "hosts.h"

/* By a state that knows it; by none, NULL, nothing is told.
 * ", held by host 0" of a zone that counts to a host;
 * "open zones: 3 of 14; host 0 holds 2 of 14, host 1 holds 1 of 4" and a new line;
 * "shares left: 9 sectors of host 0, 12 of host 1" of a drive that is not lost, after some words. */
void print_holder(struct geometry geometry, const uint8_t *state, uint32_t zone);
void print_open_zones(struct geometry geometry, const uint8_t *state);
void print_shares(const char *after, const uint8_t *state, uint32_t drive);

/* The same as a value in JSON, null where there is nothing to tell: a host; an object; the list of the shares of a drive, host 0's first. */
void print_holder_json(struct geometry geometry, const uint8_t *state, uint32_t zone);
void print_open_zones_json(struct geometry geometry, const uint8_t *state);
void print_shares_json(const uint8_t *state, uint32_t drive);
void print_all_shares_json(struct geometry geometry, const uint8_t *state); /* a list of these lists, drive by drive */

#endif
