/* The volume itself judges a geometry; here is why. */
#include "bounds.h"

#include "hosts.h"
#include "journal.h"

static uint32_t larger(uint32_t a, uint32_t b) { return a > b ? a : b; }

static uint32_t whole_units(uint32_t sectors, uint32_t unit) { return (sectors + unit - 1) / unit * unit; }

uint32_t least_zone_sectors(struct geometry g) { return whole_units(larger(g.zones * (1 + g.unit) + 2 * g.unit + 1, g.zones + 6), g.unit); }

uint32_t least_roomy_zone_sectors(struct geometry g) {
    return whole_units(larger(2 * g.zones * (1 + g.unit) + 2 * g.unit + 2, 3 * g.zones + 7), g.unit);
}

/* Of the zone's sectors the new log has a closing entry and for each zone an entry of 1 + U at most; past the reserve, L * (1 + U) + U, half is a share, and
 * a write's entry has 1 + U at most. That is never less than the bound above. */
uint32_t least_sharing_zone_sectors(struct geometry g) {
    return whole_units(1 + g.zones * (1 + g.unit) + parity_reserve(g) + 2 * (1 + g.unit), g.unit);
}

bool leaves_shares(struct geometry g) { return share_of_room(g, g.zone_sectors) >= entry_sectors(g, 1); }

static bool is_outside(uint32_t number, uint32_t least, uint32_t most, const char *option, struct message *message) {
    if (number >= least && number <= most)
        return false;
    fail(message, "--%s: %u is not a number from %u to %u", option, number, least, most);
    return true;
}

bool geometry_fits(struct geometry g, struct message *message) {
    if (geometry_is_taken(g))
        return true;
    if (is_outside(g.drives, ZRV_LEAST_DRIVES, ZRV_MOST_DRIVES, "drives", message) ||
        is_outside(g.sector_bytes, ZRV_LEAST_SECTOR_BYTES, ZRV_MOST_SECTOR_BYTES, "sector-bytes", message) ||
        is_outside(g.unit, 1, ZRV_MOST_UNIT, "unit", message) || is_outside(g.zones, 1, ZRV_MOST_ZONES, "zones", message))
        return false;
    if ((g.sector_bytes & (g.sector_bytes - 1)) != 0)
        return fail(message, "--sector-bytes: %u is not %u and so on by doubling to %u", g.sector_bytes, ZRV_LEAST_SECTOR_BYTES,
                    ZRV_MOST_SECTOR_BYTES);
    if (counters_bytes(g.zones) > g.sector_bytes)
        return fail(message, "--zones: %u zones need sectors of at least %u bytes, these have %u", g.zones, counters_bytes(g.zones), g.sector_bytes);
    if (is_outside(g.zone_sectors, least_zone_sectors(g), ZRV_MOST_ZONE_SECTORS, "zone-sectors", message))
        return false;
    if (g.zone_sectors % g.unit != 0)
        return fail(message, "--zone-sectors: %u is not a multiple of the unit, %u", g.zone_sectors, g.unit);
    return fail(message, "the volume does not take this geometry");
}
