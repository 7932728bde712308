/* The chart, as SVG written line by line: for each zone that the calls touch a panel, with a column for each moment, a dot for each pointer that was shown,
 * as large as its share, and the lines between which it has to lie. */
#include "explore/picture.h"

enum { LEFT = 74, RIGHT = 28, HEADER = 84, CALL_NAMES = 26, AXIS = 62, LEGEND = 64, LEAST_WIDTH = 760, PLOT_HEIGHT = 300, LEAST_STEP = 16, MOST_STEP = 44 };

static const char *const style =
    "<style>\n"
    "text { font-family: 'DejaVu Sans', Verdana, sans-serif; font-size: 12px; fill: #333 }\n"
    ".title { font-size: 17px; font-weight: bold; fill: #111 }\n"
    ".small { font-size: 10px; fill: #555 }\n"
    ".call { font-weight: bold }\n"
    ".band { fill: #f3f4f6 }\n"
    ".grid { stroke: #dcdfe4; stroke-width: 1 }\n"
    ".axis { stroke: #333; stroke-width: 1 }\n"
    ".allowed { fill: #cfe3f7; fill-opacity: 0.55 }\n"
    ".written { fill: none; stroke: #1f6fb5; stroke-width: 2 }\n"
    ".flushed { fill: none; stroke: #2b8a3e; stroke-width: 2; stroke-dasharray: 6 3 }\n"
    ".shown { fill: #22303f; fill-opacity: 0.8 }\n"
    ".misfit { fill: #c92a2a }\n"
    "</style>\n";

/* Where a zone's panel is, and its scales. */
struct panel {
    FILE *out;
    const struct explorer *explorer;
    uint32_t zone;
    double left, bottom, step, unit; /* the plot's corner; a moment's width, a sector's height */
    uint32_t most;                   /* the largest pointer on the axis */
};

static double x_of(const struct panel *panel, size_t moment) { return panel->left + ((double)moment + 0.5) * panel->step; }
static double y_of(const struct panel *panel, uint32_t pointer) { return panel->bottom - ((double)pointer + 0.5) * panel->unit; }
static double plot_right(const struct panel *panel) { return panel->left + (double)panel->explorer->moments_length * panel->step; }
static double plot_top(const struct panel *panel) { return panel->bottom - (panel->most + 1) * panel->unit; }

static uint32_t largest_pointer(const struct explorer *explorer, uint32_t zone) {
    uint64_t pointers = zone_addresses(explorer->options->geometry) + 1;
    uint32_t most = 1;
    for (size_t i = 0; i < explorer->moments_length; i++) {
        const struct moment *moment = &explorer->moments[i];
        most = moment->zone[zone].length > most ? moment->zone[zone].length : most;
        for (uint32_t n = most + 1; n < pointers; n++)
            most = moment->zone[zone].shown[n] + moment->zone[zone].misfit[n] > 0 ? n : most;
    }
    return most;
}

/* Of the format there is no request: power goes only when it is done. */
static void draw_call_name(const struct panel *panel, const struct request *request, double x) {
    fprintf(panel->out, "<text class=\"call\" text-anchor=\"middle\" x=\"%.1f\" y=\"%.1f\">", x, plot_top(panel) - 9);
    const struct call_traits *traits = traits_of(request == NULL ? CALL_FORMAT : request->kind);
    fputs(traits->name, panel->out);
    if (traits->in_zone && request->sectors > 0)
        fprintf(panel->out, " %u", request->sectors);
    if (traits->in_zone && (request->sectors == 0 || request->zone != panel->zone))
        fprintf(panel->out, " z%u", request->zone);
    if (request != NULL && request->kind == CALL_COMPACT)
        fprintf(panel->out, " d%u", request->drive);
    fputs("</text>\n", panel->out);
}

/* The moments of one call, from the first on: where those of the next one begin. */
static size_t moments_end(const struct explorer *explorer, size_t first) {
    size_t end = first;
    while (end < explorer->moments_length && explorer->moments[end].sent == explorer->moments[first].sent)
        end++;
    return end;
}

/* The calls as bands behind the plot. */
static void draw_bands(const struct panel *panel) {
    const struct explorer *explorer = panel->explorer;
    for (size_t first = 0, end; first < explorer->moments_length; first = end) {
        end = moments_end(explorer, first);
        if (explorer->moments[first].sent % 2 == 1)
            fprintf(panel->out, "<rect class=\"band\" x=\"%.1f\" y=\"%.1f\" width=\"%.1f\" height=\"%.1f\"/>\n", panel->left + (double)first * panel->step,
                    plot_top(panel) - CALL_NAMES, (double)(end - first) * panel->step, panel->bottom - plot_top(panel) + CALL_NAMES);
    }
}

/* Their names above it; one may be wider than its band. */
static void draw_calls(const struct panel *panel) {
    const struct explorer *explorer = panel->explorer;
    draw_bands(panel);
    for (size_t first = 0, end; first < explorer->moments_length; first = end) {
        end = moments_end(explorer, first);
        size_t sent = explorer->moments[first].sent;
        draw_call_name(panel, sent == 0 ? NULL : &explorer->options->calls.request[sent - 1], panel->left + (double)(first + end) / 2 * panel->step);
    }
}

/* Grid, axes and their numbers: pointers upwards, the stores of the call at hand to the right. */
static void draw_axes(const struct panel *panel) {
    FILE *out = panel->out;
    double right = plot_right(panel), middle = (panel->left + right) / 2;
    uint32_t each = panel->unit >= 14 ? 1 : panel->unit >= 3 ? 5 : (panel->most + 9) / 10;
    for (uint32_t n = 0; n <= panel->most; n += each) {
        fprintf(out, "<line class=\"grid\" x1=\"%.1f\" y1=\"%.1f\" x2=\"%.1f\" y2=\"%.1f\"/>\n", panel->left, y_of(panel, n), right, y_of(panel, n));
        fprintf(out, "<text text-anchor=\"end\" x=\"%.1f\" y=\"%.1f\">%u</text>\n", panel->left - 8, y_of(panel, n) + 4, n);
    }
    fprintf(out, "<text class=\"small\" text-anchor=\"middle\" x=\"%.1f\" y=\"%.1f\">all</text>\n", x_of(panel, 0), panel->bottom + 15);
    for (size_t i = 1; i < panel->explorer->moments_length; i++)
        fprintf(out, "<text class=\"small\" text-anchor=\"middle\" x=\"%.1f\" y=\"%.1f\">%u</text>\n", x_of(panel, i), panel->bottom + 15,
                panel->explorer->moments[i].stores);
    fprintf(out, "<line class=\"axis\" x1=\"%.1f\" y1=\"%.1f\" x2=\"%.1f\" y2=\"%.1f\"/>\n", panel->left, panel->bottom, right, panel->bottom);
    fprintf(out, "<line class=\"axis\" x1=\"%.1f\" y1=\"%.1f\" x2=\"%.1f\" y2=\"%.1f\"/>\n", panel->left, panel->bottom, panel->left, plot_top(panel));
    fprintf(out, "<text text-anchor=\"middle\" x=\"%.1f\" y=\"%.1f\">stores that the call has made when power goes</text>\n",
            middle, panel->bottom + 38);
    fprintf(out, "<text text-anchor=\"middle\" transform=\"translate(%.1f %.1f) rotate(-90)\">pointer of zone %u, sectors</text>\n", panel->left - 44,
            (panel->bottom + plot_top(panel)) / 2, panel->zone);
}

/* A line in steps, forwards or back, over what was written or what was flushed at each moment. */
static void put_steps(const struct panel *panel, bool flushed, bool back) {
    size_t length = panel->explorer->moments_length;
    for (size_t k = 0; k < length; k++) {
        size_t i = back ? length - 1 - k : k;
        const struct moment *moment = &panel->explorer->moments[i];
        double y = y_of(panel, flushed ? moment->zone[panel->zone].flushed : moment->zone[panel->zone].length);
        double half = back ? -panel->step / 2 : panel->step / 2;
        fprintf(panel->out, "%.1f,%.1f %.1f,%.1f ", x_of(panel, i) - half, y, x_of(panel, i) + half, y);
    }
}

/* Between the lines a look has to fall, or at 0 where a reset was begun. */
static void draw_bounds(const struct panel *panel) {
    for (size_t i = 0; i < panel->explorer->moments_length; i++) {
        if (panel->explorer->moments[i].zone[panel->zone].reset_begun)
            fprintf(panel->out, "<rect class=\"allowed\" x=\"%.1f\" y=\"%.1f\" width=\"%.1f\" height=\"%.1f\"/>\n", x_of(panel, i) - panel->step / 2,
                    y_of(panel, 0) - panel->unit / 4, panel->step, panel->unit / 2);
    }
    fputs("<polygon class=\"allowed\" points=\"", panel->out);
    put_steps(panel, false, false);
    put_steps(panel, true, true);
    fputs("\"/>\n<polyline class=\"written\" points=\"", panel->out);
    put_steps(panel, false, false);
    fputs("\"/>\n<polyline class=\"flushed\" points=\"", panel->out);
    put_steps(panel, true, false);
    fputs("\"/>\n", panel->out);
}

/* Of a number from 0 to 1, by Newton's steps from above. */
static double square_root(double number) {
    double root = 1;
    for (int i = 0; i < 40; i++)
        root = (root + number / root) / 2;
    return root;
}

/* The dots of a moment: the area is the share of the looks at that moment. */
static void draw_moment(const struct panel *panel, size_t at) {
    const struct moment *moment = &panel->explorer->moments[at];
    const uint64_t *shown = moment->zone[panel->zone].shown, *misfit = moment->zone[panel->zone].misfit;
    double looks = 0, largest = (panel->step < panel->unit ? panel->step : panel->unit) / 2 - 1;
    for (uint32_t n = 0; n <= panel->most; n++)
        looks += (double)(shown[n] + misfit[n]);
    for (uint32_t n = 0; n <= panel->most; n++) {
        uint64_t count = shown[n] + misfit[n];
        if (count == 0)
            continue;
        double radius = largest * square_root((double)count / looks);
        fprintf(panel->out, "<circle class=\"%s\" cx=\"%.1f\" cy=\"%.1f\" r=\"%.1f\"><title>zone %u at %u: %llu of %.0f looks</title></circle>\n",
                misfit[n] > 0 ? "misfit" : "shown", x_of(panel, at), y_of(panel, n), radius < 1.2 ? 1.2 : radius, panel->zone, n,
                (unsigned long long)count, looks);
    }
}

static void draw_panel(const struct panel *panel) {
    draw_calls(panel);
    draw_axes(panel);
    draw_bounds(panel);
    for (size_t i = 0; i < panel->explorer->moments_length; i++)
        draw_moment(panel, i);
}

static void draw_header(FILE *out, const struct explorer *explorer) {
    struct geometry g = explorer->options->geometry;
    bool drawn = explorer->moments[0].limit != UINT64_MAX;
    fprintf(out, "<text class=\"title\" x=\"%d\" y=\"28\">Power goes: what does the volume show when it is back?</text>\n", LEFT);
    fprintf(out, "<text x=\"%d\" y=\"49\">%u drives, stripes of %u sectors; a look after each loss of power, before the mount.</text>\n", LEFT, g.drives,
            (g.drives - 1) * g.unit);
    fprintf(out, "<text x=\"%d\" y=\"66\">%llu looks: %zu moments, times %s, times the drive that is lost, or none.</text>\n", LEFT,
            (unsigned long long)explorer->counts.returns, explorer->moments_length, drawn ? "draws of what the caches keep" : "all that the caches may keep");
}

static void draw_legend(FILE *out, double y, bool misfits) {
    fprintf(out, "<g transform=\"translate(%d %.1f)\">\n", LEFT, y);
    fputs("<line class=\"written\" x1=\"0\" y1=\"8\" x2=\"28\" y2=\"8\"/><text x=\"36\" y=\"12\">written</text>\n"
          "<line class=\"flushed\" x1=\"104\" y1=\"8\" x2=\"132\" y2=\"8\"/><text x=\"140\" y=\"12\">flushed</text>\n"
          "<rect class=\"allowed\" x=\"206\" y=\"1\" width=\"28\" height=\"14\"/><text x=\"242\" y=\"12\">where a look has to fall</text>\n"
          "<circle class=\"shown\" cx=\"10\" cy=\"32\" r=\"8\"/><circle class=\"shown\" cx=\"28\" cy=\"32\" r=\"3\"/>"
          "<text x=\"42\" y=\"36\">shown; the area is the share of the looks at that moment</text>\n",
          out);
    if (misfits)
        fputs("<circle class=\"misfit\" cx=\"430\" cy=\"32\" r=\"6\"/><text x=\"444\" y=\"36\">shown, and does not fit</text>\n", out);
    fputs("</g>\n", out);
}

static bool is_touched(const struct request_list *list, uint32_t zone) {
    for (size_t i = 0; i < list->length; i++)
        if (traits_of(list->request[i].kind)->in_zone && list->request[i].zone == zone)
            return true;
    return false;
}

bool draw_picture(const struct explorer *explorer, FILE *out) {
    const struct options *options = explorer->options;
    double step = (double)(LEAST_WIDTH - LEFT - RIGHT) / (double)explorer->moments_length, top = HEADER;
    step = step > MOST_STEP ? MOST_STEP : step < LEAST_STEP ? LEAST_STEP : step;
    double width = LEFT + RIGHT + step * (double)explorer->moments_length;
    uint32_t panels = 0;
    for (uint32_t z = 0; z < options->geometry.zones; z++)
        panels += is_touched(&options->calls, z);
    double height = HEADER + LEGEND + panels * (double)(CALL_NAMES + PLOT_HEIGHT + AXIS);
    width = width < LEAST_WIDTH ? LEAST_WIDTH : width;
    fprintf(out, "<svg xmlns=\"http://www.w3.org/2000/svg\" width=\"%.0f\" height=\"%.0f\" viewBox=\"0 0 %.0f %.0f\">\n", width, height, width, height);
    fprintf(out, "%s<rect width=\"100%%\" height=\"100%%\" fill=\"#fff\"/>\n", style);
    draw_header(out, explorer);
    for (uint32_t z = 0; z < options->geometry.zones; z++) {
        if (!is_touched(&options->calls, z))
            continue;
        struct panel panel = {out, explorer, z, LEFT, top + CALL_NAMES + PLOT_HEIGHT, step, 0, largest_pointer(explorer, z)};
        panel.unit = (double)PLOT_HEIGHT / (panel.most + 1);
        draw_panel(&panel);
        top += CALL_NAMES + PLOT_HEIGHT + AXIS;
    }
    draw_legend(out, top, explorer->counts.misfits > 0);
    fputs("</svg>\n", out);
    return fclose(out) == 0;
}
