// A part of a sheet, triangulated within its turns: a channel gets a point on its way (a loop two), a face a centre, and where its walk comes to a point twice
// a ring of points before that, so that there are no loops and no parallels. A triangle lies round all. Here too is the frame on which the outer points are to
// lie.
#include "part.h"

void part_take(const struct drawing_sheet *sheet, const struct map *map, uint32_t which, struct part *part) {
    part->nodes = part->edges = part->triangles = 0;
    for (uint32_t node = 0; node < sheet->nodes; node++)
        if (map->part[node] == which) part->local[node] = (uint16_t)part->nodes, part->node[part->nodes++] = (uint16_t)node;
    for (uint32_t edge = 0; edge < sheet->channels; edge++) {
        if (map->part[sheet->tails[2 * edge]] != which) continue;
        for (uint32_t side = 0; side < 2; side++) part->dart[2 * edge + side] = (uint16_t)(2 * part->edges + side);
        part->edge[part->edges++] = (uint16_t)edge;
    }
    part->points = part->nodes;
    for (uint32_t edge = 0; edge < part->edges; edge++) {
        for (uint32_t side = 0; side < 2; side++) {
            uint32_t dart = 2u * part->edge[edge] + side;
            part->tail[2 * edge + side] = part->local[sheet->tails[dart]];
            part->turn[2 * edge + side] = part->dart[sheet->turns[dart]];
        }
        part->way[2 * edge] = part->way[2 * edge + 1] = (uint16_t)part->points++;
        if (part->tail[2 * edge] == part->tail[2 * edge + 1]) part->way[2 * edge + 1] = (uint16_t)part->points++;
    }
}

// ---- Its triangulation ----

// The points round the face left of a dart, from its tail on.
static uint32_t walk_round(struct part *part, uint32_t start) {
    uint32_t count = 0, dart = start;
    do {
        part->walk[count++] = part->tail[dart];
        part->walk[count++] = part->way[dart];
        if (part->way[dart] != part->way[dart ^ 1]) part->walk[count++] = part->way[dart ^ 1];
        dart = part->turn[dart ^ 1];
    } while (dart != start);
    return count;
}

static int comes_once(struct part *part, uint32_t count) {
    for (uint32_t i = 0; i < count; i++) part->seen[part->walk[i]] = 0;
    for (uint32_t i = 0; i < count; i++)
        if (part->seen[part->walk[i]]++) return 0;
    return 1;
}

static void triangle(struct part *part, uint32_t a, uint32_t b, uint32_t c) {
    uint16_t *corner = &part->corner[3 * part->triangles++];
    corner[0] = (uint16_t)a, corner[1] = (uint16_t)b, corner[2] = (uint16_t)c;
}

static void fan(struct part *part, const uint16_t *walk, uint32_t count) {
    uint32_t centre = part->points++;
    for (uint32_t i = 0; i < count; i++) triangle(part, walk[i], walk[(i + 1) % count], centre);
}

// A ring of points, one beside each side of the walk. The walk becomes the ring.
static void ring(struct part *part, uint32_t count) {
    uint32_t first = part->points;
    part->points += count;
    for (uint32_t i = 0; i < count; i++) {
        uint32_t p = part->walk[i], q = part->walk[(i + 1) % count], next = first + (i + 1) % count;
        triangle(part, p, q, first + i);
        triangle(part, q, next, first + i);
    }
    for (uint32_t i = 0; i < count; i++) part->walk[i] = (uint16_t)(first + i);
}

// ---- The frame: where the points round the outside are to lie ----

// The cosine, by its series: the same on every machine.
static double cosine(double angle) {
    double square = angle * angle, term = 1, sum = 1;
    for (int i = 1; i < 40; i += 2) term *= -square / (i * (i + 1)), sum += term;
    return sum;
}

#define PI 3.14159265358979323846

// The place t of four round a frame, clockwise as seen: of a rectangle from its top left corner, of an ellipse from its left end.
static void on_frame(struct part *part, uint32_t at, double t, int rectangle) {
    double width = part->width, height = part->height, x, y;
    if (rectangle) {
        x = t < 1 ? t : t < 2 ? 1 : t < 3 ? 3 - t : 0;
        y = t < 1 ? 0 : t < 2 ? t - 1 : t < 3 ? 1 : 4 - t;
    } else {
        x = (1 - cosine(t * PI / 2)) / 2;
        y = (1 - cosine((t < 3 ? t - 1 : t - 5) * PI / 2)) / 2;
    }
    part->goal_x[at] = width * x, part->goal_y[at] = height * (1 - y);
}

uint32_t part_darts(const struct part *part, uint32_t point) {
    uint32_t count = 0;
    for (uint32_t dart = 0; dart < 2 * part->edges; dart++) count += part->tail[dart] == point;
    return count;
}

// The indices of the nodes of two channels in the walk, from the lowest node on: at most five of them.
static uint32_t find_corners(const struct part *part, uint32_t start, uint32_t count, uint32_t corner[5]) {
    uint32_t found = 0;
    for (uint32_t i = start; i < start + count && found < 5; i++)
        if (part->walk[i % count] < part->nodes && part_darts(part, part->walk[i % count]) == 2) corner[found++] = i;
    return found;
}

// The sides of the outer walk that lie left, at the top and right have the corners of the triangle round all on their outer sides: where each begins.
static void find_turning(struct part *part, uint32_t start, uint32_t count, int rectangle) {
    double from[3] = {rectangle ? 2.5 : 3, rectangle ? 0 : 1.0 / 3, rectangle ? 1 : 5.0 / 3}, last = -1;
    for (uint32_t k = 0; k < 3; k++) part->turning[k] = start % count;
    for (uint32_t i = start; i < start + count; i++) {
        double here = part->along[i % count], next = i + 1 < start + count ? part->along[(i + 1) % count] : part->along[start % count] + 4,
               middle = (here + next) / 2;
        for (uint32_t k = 0; k < 3; k++)
            if (last < from[k] && middle >= from[k]) part->turning[k] = i % count;
        last = middle;
    }
}

// Whether a point rather than another goes to the left end: a node of one channel, and of those the lowest.
static int goes_first(const struct part *part, uint32_t point, uint32_t other) {
    int end = part_darts(part, point) == 1, other_end = part_darts(part, other) == 1;
    return end != other_end ? end : point < other;
}

// The frame of an outer walk, a rectangle with the four nodes of two channels as its corners, or an ellipse; and the goals of the points that are pinned to it.
static void take_frame(struct part *part, uint32_t count) {
    uint32_t start = 0, corner[5], side = 0;
    int once = comes_once(part, count);
    for (uint32_t i = 0; i < count; i++)
        if (goes_first(part, part->walk[i], part->walk[start])) start = i;
    int rectangle = once && find_corners(part, start, count, corner) == 4;
    double ratio = part->nodes > 3 ? 0.7 : 0.4, size = drawing_root(part->edges / 40.0);
    double least = part->edges < 2 ? 0.4 : part->edges < 3 ? 0.7 : 1;
    if (rectangle) {
        ratio = (double)(corner[2] - corner[1] + corner[0] + count - corner[3]) / (corner[1] - corner[0] + corner[3] - corner[2]);
        start = corner[0], corner[4] = corner[0] + count;
    }
    part->width = 608 * (size < least ? least : size), part->height = part->width * (ratio < 0.3 ? 0.3 : ratio > 1.2 ? 1.2 : ratio);
    for (uint32_t i = start; i < start + count; i++) {
        while (rectangle && i >= corner[side + 1]) side++;
        part->along[i % count] = rectangle ? side + (double)(i - corner[side]) / (corner[side + 1] - corner[side]) : 4 * (i - start + (once ? 0 : 0.5)) / count;
        on_frame(part, i % count, part->along[i % count], rectangle);
    }
    find_turning(part, start, count, rectangle);
}

// ---- The triangulation of all ----

static void triangulate_faces(struct part *part, uint32_t outer) {
    uint8_t *done = part->gone;
    for (uint32_t dart = 0; dart < 2 * part->edges; dart++) done[dart] = 0;
    for (uint32_t at = 0; at <= 2 * part->edges; at++) {
        uint32_t dart = at ? at - 1 : outer; // the outer face first
        if (at && done[dart]) continue;
        for (uint32_t d = dart; !done[d]; d = part->turn[d ^ 1]) done[d] = 1;
        uint32_t count = walk_round(part, dart);
        if (!at) take_frame(part, count);
        if (!comes_once(part, count)) ring(part, count);
        if (at) {
            fan(part, part->walk, count);
            continue;
        }
        part->pins = count;
        for (uint32_t i = 0; i < count; i++) part->pinned[i] = part->walk[i];
    }
}

// The triangle round all: its corners see the pinned points in turn, the left corner those from the bottom to the left, and so on.
static void triangulate_outside(struct part *part) {
    uint32_t corner[3] = {part->points, part->points + 1, part->points + 2}, count = part->pins;
    part->left_corner = corner[0], part->top_corner = corner[1], part->right_corner = corner[2];
    part->points += 3;
    part->outside = part->triangles;
    for (uint32_t side = 0; side < 3; side++) {
        uint32_t from = part->turning[side], to = part->turning[(side + 1) % 3];
        for (uint32_t i = from; i != to; i = (i + 1) % count) triangle(part, part->pinned[i], part->pinned[(i + 1) % count], corner[side]);
        triangle(part, part->pinned[to], corner[(side + 1) % 3], corner[side]);
    }
}

// ---- Which points lie next to which ----

static uint32_t turned(uint32_t half) { return half % 3 == 2 ? half - 2 : half + 1; } // the next half-edge of the triangle
static uint32_t turned_back(uint32_t half) { return half % 3 == 0 ? half + 2 : half - 1; }

static uint32_t slot_of(const struct part *part, uint32_t from, uint32_t to) {
    uint32_t slot = (from * 40503u + to * 9973u) & (TABLE - 1);
    for (;; slot = (slot + 1) & (TABLE - 1)) {
        uint32_t half = part->table[slot];
        if (!half || (part->corner[half - 1] == from && part->corner[turned(half - 1)] == to)) return slot;
    }
}

static void find_twins(struct part *part) {
    uint32_t halves = 3 * part->triangles;
    for (uint32_t slot = 0; slot < TABLE; slot++) part->table[slot] = 0;
    for (uint32_t half = 0; half < halves; half++) part->table[slot_of(part, part->corner[half], part->corner[turned(half)])] = half + 1;
    for (uint32_t half = 0; half < halves; half++) {
        uint32_t found = part->table[slot_of(part, part->corner[turned(half)], part->corner[half])];
        part->twin[half] = found ? found - 1 : half;
    }
}

// Anticlockwise. The corners of the triangle round all are left out: no half-edge leads from the left corner to the top, from there to the right, and back.
static void find_neighbours(struct part *part) {
    uint32_t *start = part->list, count = 0; // of each point, a half-edge; of a corner of the triangle the first one
    find_twins(part);
    for (uint32_t half = 0; half < 3 * part->triangles; half++) start[part->corner[half]] = half;
    for (uint32_t half = 0; half < 3 * part->triangles; half++)
        if (part->twin[half] == half) start[part->corner[half]] = half;
    for (uint32_t point = 0; point < part->points; point++) {
        uint32_t half = start[point], back;
        part->first[point] = count;
        for (;; half = part->twin[back]) {
            part->near[count++] = part->corner[turned(half)];
            back = turned_back(half);
            if (part->twin[back] == back) part->near[count++] = part->corner[back];
            if (part->twin[back] == back || part->twin[back] == start[point]) break;
        }
    }
    part->first[part->points] = count;
}

uint32_t part_half(const struct part *part, uint32_t from, uint32_t to) { return part->table[slot_of(part, from, to)] - 1; }

void part_triangulate(struct part *part, uint32_t outer) {
    triangulate_faces(part, outer);
    triangulate_outside(part);
    find_neighbours(part);
}
