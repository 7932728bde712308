/* What look and mount are refused for, by the logs as they stand: rule 1 and refusals 4 and 5, then 6, 16 and 17 with their place. */
#include "bytes.h"
#include "plain_logs.h"

/* The label with which a drive's general log begins, and its last one; NULL where it begins with none. */
struct labels {
    const uint8_t *first, *last;
};

static struct labels labels_of(const struct volume *v, uint32_t drive) {
    struct labels labels = {NULL, NULL};
    struct journal_reader reader = volume_log(v, drive, GENERAL_LOG);
    const uint8_t *sector;
    while (next_entry(&reader, &sector) == JOURNAL_ENTRY && (labels.first != NULL || sector[ENTRY_TYPE] == ENTRY_LABEL)) {
        labels.first = labels.first == NULL ? sector : labels.first;
        labels.last = sector[ENTRY_TYPE] == ENTRY_LABEL ? sector : labels.last;
    }
    return labels;
}

/* The drives that are lost, as bits: those that are not named, and those that the last label of a named drive names. */
static uint32_t lost_drives(const struct volume *v, uint32_t named) {
    uint32_t lost = ~named & ((1u << v->geometry.drives) - 1);
    for (uint32_t d = 0; d < v->geometry.drives; d++) {
        struct labels labels = (named >> d & 1) == 0 ? (struct labels){NULL, NULL} : labels_of(v, d);
        if (labels.first != NULL && labels.last[LABEL_LOST] != ZRV_NO_DRIVE)
            lost |= 1u << labels.last[LABEL_LOST];
    }
    return lost;
}

/* Refusal 5. */
static bool labels_fit(const struct volume *v, uint32_t lost) {
    const uint8_t *other = NULL;
    for (uint32_t d = 0; d < v->geometry.drives; d++) {
        if ((lost >> d & 1) != 0)
            continue;
        struct log_zones zones = volume_log_zones(v, d);
        const uint8_t *first = labels_of(v, d).first;
        if (find_spare(&zones) == NO_ZONE || first == NULL || (other != NULL && get64(first + LABEL_ARRAY) != get64(other + LABEL_ARRAY)))
            return false;
        other = first;
    }
    return true;
}

/* Refusals 6, 16 and 17 of one log: where a walk of it finds no entry. */
static uint32_t log_refusal(const struct volume *v, uint32_t drive, uint32_t log, uint32_t *at) {
    struct journal_reader reader = volume_log(v, drive, log);
    const uint8_t *sector;
    enum journal_step step;
    while ((step = next_entry(&reader, &sector)) == JOURNAL_ENTRY)
        ;
    *at = reader.at;
    return step == JOURNAL_NO_ENTRY ? why_no_entry(&reader, sector) : ZRV_FINISHED;
}

/* The same of all logs of the drives that are not lost, in the order of the physical zones in which they lie. */
static uint32_t logs_refusal(const struct volume *v, uint32_t lost, struct log_place *bad) {
    for (uint32_t d = 0; d < v->geometry.drives; d++)
        for (uint32_t y = 0; y < ZRV_LOG_ZONES && (lost >> d & 1) == 0; y++)
            for (uint32_t log = GENERAL_LOG; log <= PARITY_LOG; log++) {
                uint32_t at, refusal = log_zone(v, d, log) == y ? log_refusal(v, d, log, &at) : ZRV_FINISHED;
                if (refusal != ZRV_FINISHED) {
                    *bad = (struct log_place){d, y, at};
                    return refusal;
                }
            }
    return ZRV_FINISHED;
}

uint32_t look_refusal(const struct volume *v, uint32_t named, struct log_place *bad) {
    uint32_t refusal = format_refusal(v, named);
    *bad = (struct log_place){0, 0, 0};
    if (refusal != ZRV_FINISHED)
        return refusal;
    uint32_t lost = lost_drives(v, named);
    if ((lost & (lost - 1)) != 0)
        return ZRV_TWO_LOST;
    return labels_fit(v, lost) ? logs_refusal(v, lost, bad) : ZRV_LABEL;
}
