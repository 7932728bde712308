/* Who holds zones open, and what is left of the shares. */
#include "holders.h"

#include <stdio.h>

#include "message.h"

/* The host to which a zone counts; ZRV_HOSTS where it counts to none. */
static uint32_t holder_of(struct geometry g, const uint8_t *state, uint32_t zone) {
    uint32_t host = 0;
    while (state != NULL && host < ZRV_HOSTS && !counts_to(g, state, zone, host))
        host++;
    return state == NULL ? ZRV_HOSTS : host;
}

/* What the state says of the shares of a lost drive means nothing. */
static bool has_shares(const uint8_t *state, uint32_t drive) { return state != NULL && drive != state[ZRV_STATE_LOST]; }

void print_holder(struct geometry g, const uint8_t *state, uint32_t zone) {
    uint32_t host = holder_of(g, state, zone);
    if (host < ZRV_HOSTS)
        printf(", held by host %u", host);
}

void print_open_zones(struct geometry g, const uint8_t *state) {
    if (state == NULL)
        return;
    printf("open zones: %u of %u; ", count_open(g, state), ZRV_MOST_OPEN);
    for (uint32_t host = 0; host < ZRV_HOSTS; host++)
        printf("host %u holds %u of %u%s", host, count_open_of(g, state, host), limit_of(host), host + 1 < ZRV_HOSTS ? ", " : "\n");
}

void print_shares(const char *after, const uint8_t *state, uint32_t drive) {
    if (!has_shares(state, drive))
        return;
    uint32_t first = share_in_state(state, drive, 0);
    printf("%sshares left: %u sector%s of host 0, %u of host 1", after, first, plural(first), share_in_state(state, drive, 1));
}

void print_holder_json(struct geometry g, const uint8_t *state, uint32_t zone) {
    uint32_t host = holder_of(g, state, zone);
    if (host < ZRV_HOSTS)
        printf("%u", host);
    else
        printf("null");
}

void print_open_zones_json(struct geometry g, const uint8_t *state) {
    if (state == NULL) {
        printf("null");
        return;
    }
    printf("{\"all\": %u, \"most\": %u, \"hosts\": [", count_open(g, state), ZRV_MOST_OPEN);
    for (uint32_t host = 0; host < ZRV_HOSTS; host++)
        printf("{\"host\": %u, \"open\": %u, \"most\": %u}%s", host, count_open_of(g, state, host), limit_of(host), host + 1 < ZRV_HOSTS ? ", " : "]}");
}

void print_shares_json(const uint8_t *state, uint32_t drive) {
    if (!has_shares(state, drive))
        printf("null");
    else
        printf("[%u, %u]", share_in_state(state, drive, 0), share_in_state(state, drive, 1));
}

void print_all_shares_json(struct geometry g, const uint8_t *state) {
    for (uint32_t d = 0; d < g.drives; d++) {
        printf(d == 0 ? "[" : ", ");
        print_shares_json(state, d);
    }
    printf("]");
}
