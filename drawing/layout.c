// Places from turns: each part by itself (triangulate.c, grid.c, tutte.c), scaled to hundredths of a pixel, its channels straight where they can be, and the
// parts in rows. In parts y grows upwards; on the page, downwards.
#include "part.h"

#define PIXEL DRAWING_UNIT
#define BETWEEN (130 * PIXEL) // parts
#define LARGEST 6 // times as large as its frame, at most, if channels are short or close

struct layout {
    struct map map;
    struct part part;
    int32_t x[DRAWING_NODES], y[DRAWING_NODES]; // of the sheet's nodes
    int32_t way_x[DRAWING_DARTS], way_y[DRAWING_DARTS]; // of the points on each channel's way, the same one twice where it is no loop
    uint8_t straight[DRAWING_CHANNELS], sharp[DRAWING_CHANNELS];
    int32_t wide[DRAWING_NODES], high[DRAWING_NODES]; // of each part
    double measure[DRAWING_DARTS];
    struct drawing_sheet own; // a part as a sheet, and its places with a corner at each point
    struct drawing_places own_places;
    uint64_t work[FOLLOW_WORK / 8];
};
_Static_assert(sizeof(struct layout) <= DRAWING_WORK, "DRAWING_WORK");

// ---- A part that is a row of nodes ----

// Whether the part is one, of many nodes.
static int is_row(const struct part *part) {
    if (part->nodes < 13 || part->edges != part->nodes - 1) return 0;
    for (uint32_t node = 0; node < part->nodes; node++)
        if (part_darts(part, node) > 2) return 0;
    return 1;
}

// To and fro in lines, from the lowest end.
static void place_row(struct part *part) {
    uint32_t across = 6, node = 0, dart = 0;
    while (5 * across * across < 8 * part->nodes) across++;
    while (part_darts(part, node) > 1) node++;
    while (part->tail[dart] != node) dart++;
    for (uint32_t i = 0; i < part->nodes; i++) {
        uint32_t row = i / across, column = row % 2 ? across - 1 - i % across : i % across;
        part->x[part->tail[dart]] = (int32_t)(110 * FINE * column), part->y[part->tail[dart]] = (int32_t)(100 * FINE * (part->nodes / across - row));
        if (i + 2 < part->nodes)
            dart = part->turn[dart ^ 1];
        else
            dart ^= 1; // the last node
    }
    for (uint32_t edge = 0; edge < part->edges; edge++) {
        uint32_t a = part->tail[2 * edge], b = part->tail[2 * edge + 1], way = part->way[2 * edge];
        part->x[way] = (part->x[a] + part->x[b]) / 2, part->y[way] = (part->y[a] + part->y[b]) / 2;
    }
    part->triangles = 0;
}

// ---- The size of a part ----

static double distance(const struct part *part, uint32_t p, uint32_t q) {
    double x = (double)part->x[p] - part->x[q], y = (double)part->y[p] - part->y[q];
    return drawing_root(x * x + y * y) / FINE;
}

// The number below which lie this many of the numbers.
static double lowest(double *numbers, uint32_t count, uint32_t skipped) {
    for (uint32_t gap = count / 2; gap > 0; gap /= 2)
        for (uint32_t i = gap; i < count; i++)
            for (uint32_t k = i; k >= gap && numbers[k] < numbers[k - gap]; k -= gap) {
                double kept = numbers[k];
                numbers[k] = numbers[k - gap], numbers[k - gap] = kept;
            }
    return numbers[skipped];
}

// How much larger the part is to be, so that most channels are long enough for the circles of their nodes, and lie apart where they are next to each other.
static double enlarged(const struct part *part, double *measure) {
    uint32_t count = 0;
    double by = 1;
    for (uint32_t edge = 0; edge < part->edges; edge++)
        if (part->tail[2 * edge] != part->tail[2 * edge + 1]) measure[count++] = distance(part, part->tail[2 * edge], part->tail[2 * edge + 1]);
    if (count) by = 60 / lowest(measure, count, count / 20);
    for (uint32_t dart = count = 0; dart < 2 * part->edges; dart++)
        if (part->turn[dart] / 2 != dart / 2) measure[count++] = distance(part, part->way[dart], part->way[part->turn[dart]]);
    if (count) {
        double other = 24 / lowest(measure, count, count / 10);
        if (other > by) by = other;
    }
    return by < 1 ? 1 : by < LARGEST ? by : LARGEST;
}

// The part in hundredths of a pixel. Whether its triangles keep their direction.
static int rounded(struct part *part, double by, int32_t *x, int32_t *y) {
    double factor = by * PIXEL / FINE;
    for (uint32_t p = 0; p < part->points; p++) x[p] = (int32_t)(part->x[p] * factor + 0.5), y[p] = (int32_t)(part->y[p] * factor + 0.5);
    for (uint32_t half = 0; half < 3 * part->outside && part->triangles; half += 3) {
        uint32_t a = part->corner[half], b = part->corner[half + 1], c = part->corner[half + 2];
        if (twice_area(x[a], y[a], x[b], y[b], x[c], y[c]) <= 0) return 0;
    }
    return 1;
}

// Whether the part's channels, with corners at their points, show its turns at these places and cross nowhere: they may where a triangle has turned.
static int shows(struct layout *layout, const int32_t *x, const int32_t *y) {
    const struct part *part = &layout->part;
    struct drawing_sheet *own = &layout->own;
    struct drawing_places *places = &layout->own_places;
    uint32_t count = 0, at;
    own->nodes = (uint16_t)part->nodes, own->channels = (uint16_t)part->edges, own->outer = DRAWING_NONE;
    for (uint32_t dart = 0; dart < 2 * part->edges; dart++) own->tails[dart] = part->tail[dart], own->turns[dart] = part->turn[dart];
    for (uint32_t node = 0; node < part->nodes; node++) places->x[node] = x[node], places->y[node] = y[node];
    for (uint32_t dart = 0; dart < 2 * part->edges; dart++) {
        if (dart % 2 == 0) places->first[dart / 2] = (uint16_t)count, places->sharp[dart / 2] = 1;
        if (dart % 2 == 0 || part->way[dart] != part->way[dart - 1]) places->bend_x[count] = x[part->way[dart]], places->bend_y[count++] = y[part->way[dart]];
    }
    places->first[part->edges] = (uint16_t)count;
    for (uint32_t i = 0; i < part->nodes; i++) places->y[i] = -places->y[i];
    for (uint32_t i = 0; i < count; i++) places->bend_y[i] = -places->bend_y[i];
    return drawing_follows(own, places, layout->work, &at) == DRAWING_DONE;
}

// Takes a part's places, as large as it is to be or as it must be: at the latest where a step is a hundredth of a pixel they are the places themselves.
static void keep_part(struct layout *layout, uint32_t which) {
    struct part *part = &layout->part;
    int32_t *x = part->sum[0], *y = part->sum[1], left = INT32_MAX, right = INT32_MIN, low = INT32_MAX, high = INT32_MIN;
    double by = enlarged(part, layout->measure), most = (double)FINE / PIXEL;
    while (!rounded(part, by, x, y) && !shows(layout, x, y)) by = 2 * by < most ? 2 * by : most;
    for (uint32_t p = 0; p < part->nodes + 2 * part->edges; p++) {
        uint32_t point = p < part->nodes ? p : part->way[p - part->nodes];
        left = x[point] < left ? x[point] : left, right = x[point] > right ? x[point] : right;
        low = y[point] < low ? y[point] : low, high = y[point] > high ? y[point] : high;
    }
    for (uint32_t p = 0; p < part->nodes; p++) layout->x[part->node[p]] = x[p] - left, layout->y[part->node[p]] = high - y[p];
    for (uint32_t dart = 0; dart < 2 * part->edges; dart++) {
        uint32_t to = 2u * part->edge[dart / 2] + dart % 2;
        layout->way_x[to] = x[part->way[dart]] - left, layout->way_y[to] = high - y[part->way[dart]];
    }
    layout->wide[which] = right - left, layout->high[which] = high - low;
}

// ---- Straight channels ----

// Whether a point lies in a triangle or on its rim, whichever way that is turned.
static int lies_in(int32_t x, int32_t y, const int32_t tx[3], const int32_t ty[3]) {
    int64_t a = twice_area(tx[0], ty[0], tx[1], ty[1], x, y), b = twice_area(tx[1], ty[1], tx[2], ty[2], x, y),
            c = twice_area(tx[2], ty[2], tx[0], ty[0], x, y);
    return (a >= 0 && b >= 0 && c >= 0) || (a <= 0 && b <= 0 && c <= 0);
}

// The triangle of a channel: of its tail, its point and its head, or of a loop's node and its two points. Whether no other node and no other channel's point is
// in it: then nothing else of the drawing is, as a line that came in would have to end in it. So a curve in it is free, and so are two curves in two of them.
static int is_free(const struct drawing_sheet *sheet, const struct layout *layout, uint32_t channel) {
    uint32_t tail = sheet->tails[2 * channel], head = sheet->tails[2 * channel + 1], last = 2 * channel + (tail == head);
    int32_t tx[3] = {layout->x[tail], layout->way_x[2 * channel], tail == head ? layout->way_x[last] : layout->x[head]};
    int32_t ty[3] = {layout->y[tail], layout->way_y[2 * channel], tail == head ? layout->way_y[last] : layout->y[head]};
    uint32_t part = layout->map.part[tail];
    for (uint32_t node = 0; node < sheet->nodes; node++)
        if (node != tail && node != head && layout->map.part[node] == part && lies_in(layout->x[node], layout->y[node], tx, ty)) return 0;
    for (uint32_t dart = 0; dart < 2u * sheet->channels; dart++) {
        if (dart / 2 == channel || layout->straight[dart / 2] || layout->map.part[sheet->tails[dart]] != part) continue;
        if (lies_in(layout->way_x[dart], layout->way_y[dart], tx, ty)) return 0;
    }
    return 1;
}

// The square of a node's distance from the line between two others.
static double near_line(const struct layout *layout, uint32_t node, uint32_t p, uint32_t q) {
    double x = (double)layout->x[node] - layout->x[p], y = (double)layout->y[node] - layout->y[p];
    double dx = (double)layout->x[q] - layout->x[p], dy = (double)layout->y[q] - layout->y[p], t = (x * dx + y * dy) / (dx * dx + dy * dy);
    t = t < 0 ? 0 : t > 1 ? 1 : t;
    return (x - t * dx) * (x - t * dx) + (y - t * dy) * (y - t * dy);
}

// Whether a channel may be straight: it is no loop, no other one between its ends is straight, and no node's circle is in its way.
static int may_be_straight(const struct drawing_sheet *sheet, const struct layout *layout, uint32_t channel) {
    uint32_t tail = sheet->tails[2 * channel], head = sheet->tails[2 * channel + 1];
    if (tail == head) return 0;
    for (uint32_t other = 0; other < sheet->channels; other++) {
        uint32_t a = sheet->tails[2 * other], b = sheet->tails[2 * other + 1];
        if (layout->straight[other] && ((a == tail && b == head) || (a == head && b == tail))) return 0;
    }
    for (uint32_t node = 0; node < sheet->nodes; node++) {
        if (node == tail || node == head || layout->map.part[node] != layout->map.part[tail]) continue;
        if (near_line(layout, node, tail, head) < 17.0 * 17 * PIXEL * PIXEL) return 0;
    }
    return 1;
}

// Whether the triangle of a channel is nowhere as wide as this, in pixels: its area is less than that of a strip along one of its sides.
static int narrow(const struct drawing_sheet *sheet, const struct layout *layout, uint32_t channel, double pixels) {
    uint32_t tail = sheet->tails[2 * channel], head = sheet->tails[2 * channel + 1], last = 2 * channel + 1;
    int32_t x[3] = {layout->x[tail], layout->way_x[2 * channel], tail == head ? layout->way_x[last] : layout->x[head]};
    int32_t y[3] = {layout->y[tail], layout->way_y[2 * channel], tail == head ? layout->way_y[last] : layout->y[head]};
    double area = (double)twice_area(x[0], y[0], x[1], y[1], x[2], y[2]), strip = pixels * PIXEL;
    for (uint32_t i = 0; i < 3; i++) {
        double dx = (double)x[(i + 1) % 3] - x[i], dy = (double)y[(i + 1) % 3] - y[i];
        if (area * area < (dx * dx + dy * dy) * strip * strip) return 1;
    }
    return 0;
}

// Channels that are nearly straight become so first, then others. What is neither straight nor free has corners, and so has what is too narrow for a curve:
// there the hundredths to which places are rounded would count.
static void straighten(const struct drawing_sheet *sheet, struct layout *layout) {
    for (uint32_t channel = 0; channel < sheet->channels; channel++) layout->straight[channel] = 0;
    for (uint32_t i = 0; i < 2u * sheet->channels; i++) {
        uint32_t other = i >= sheet->channels, channel = other ? i - sheet->channels : i;
        if (layout->straight[channel] || (!other && !narrow(sheet, layout, channel, 1))) continue;
        layout->straight[channel] = may_be_straight(sheet, layout, channel) && is_free(sheet, layout, channel);
    }
    for (uint32_t channel = 0; channel < sheet->channels; channel++)
        layout->sharp[channel] = narrow(sheet, layout, channel, 6) || !is_free(sheet, layout, channel);
}

// ---- The sheet ----

// The parts in rows, a little wider than high.
static void arrange(const struct drawing_sheet *sheet, struct layout *layout, struct drawing_places *places) {
    double area = 0, most = 0;
    int32_t *left = layout->part.sum[0], *top = layout->part.sum[1], x = 0, y = 0, row = 0;
    for (uint32_t part = 0; part < layout->map.parts; part++) {
        area += ((double)layout->wide[part] + BETWEEN) * ((double)layout->high[part] + BETWEEN);
        most = layout->wide[part] > most ? layout->wide[part] : most;
    }
    double width = 2.2 * drawing_root(area);
    for (uint32_t part = 0; part < layout->map.parts; part++) {
        if (x > 0 && x + layout->wide[part] > (width > most ? width : most)) x = 0, y += row + BETWEEN, row = 0;
        left[part] = x, top[part] = y, x += layout->wide[part] + BETWEEN;
        row = layout->high[part] > row ? layout->high[part] : row;
    }
    for (uint32_t node = 0; node < sheet->nodes; node++) {
        uint32_t part = layout->map.part[node];
        places->x[node] = layout->x[node] + left[part], places->y[node] = layout->y[node] + top[part];
    }
    for (uint32_t dart = 0; dart < 2u * sheet->channels; dart++) {
        uint32_t part = layout->map.part[sheet->tails[dart]];
        layout->way_x[dart] += left[part], layout->way_y[dart] += top[part];
    }
}

static void write_bends(const struct drawing_sheet *sheet, const struct layout *layout, struct drawing_places *places) {
    uint32_t count = 0;
    for (uint32_t channel = 0; channel < sheet->channels; channel++) {
        uint32_t bends = sheet->tails[2 * channel] == sheet->tails[2 * channel + 1] ? 2 : layout->straight[channel] ? 0 : 1;
        places->first[channel] = (uint16_t)count, places->sharp[channel] = bends && layout->sharp[channel];
        for (uint32_t i = 0; i < bends; i++) places->bend_x[count] = layout->way_x[2 * channel + i], places->bend_y[count++] = layout->way_y[2 * channel + i];
    }
    places->first[sheet->channels] = (uint16_t)count;
}

uint32_t drawing_places(const struct drawing_sheet *sheet, struct drawing_places *places, void *work) {
    struct layout *layout = work;
    struct part *part = &layout->part;
    if (drawing_map(sheet, &layout->map) != DRAWING_DONE) return DRAWING_NOT_FLAT;
    uint8_t *bytes = (uint8_t *)places;
    for (uint32_t i = 0; i < sizeof *places; i++) bytes[i] = 0;
    for (uint32_t which = 0; which < layout->map.parts; which++) {
        part_take(sheet, &layout->map, which, part);
        if (is_row(part))
            place_row(part);
        else
            part_triangulate(part, part->dart[layout->map.outer[which]]), part_grid(part), part_smooth(part);
        keep_part(layout, which);
    }
    straighten(sheet, layout);
    arrange(sheet, layout, places);
    write_bends(sheet, layout, places);
    return DRAWING_DONE;
}
