// Better places of a triangulated part: from those on the grid to others, each step with its triangles all turned the right way, which is tested in whole
// numbers. Every point goes into the weighted middle of its neighbours, the outer ones on a convex frame (Tutte 1963; any weights above zero will do, Floater
// 1997). With equal weights that is often too narrow for a grid of any fineness; then the weights are those for which the points lie in the middle where they
// are now (Floater's mean value coordinates, 2003). Round by round, links beside large triangles then count for more, so that small ones get room.
#include "part.h"

#define FEWEST 20 // rounds
#define MOST 150
#define LINKS_MADE 1000000 // in all rounds together, about
#define FAILURES 8 // rounds that gave no places, at most
#define EVEN 0.05 // the share of equal weights, until a round fails

// The grid is stretched so that the triangle round all is six times as large as the frame, which lies in its middle.
static void stretch(struct part *part) {
    double wide = part->x[part->right_corner], high = part->y[part->top_corner];
    int32_t across = (int32_t)(6 * part->width * FINE / wide) + 1, up = (int32_t)(6 * part->height * FINE / high) + 1;
    for (uint32_t point = 0; point < part->points; point++) part->x[point] *= across, part->y[point] *= up, part->still[point] = 0;
    part->still[part->left_corner] = part->still[part->top_corner] = part->still[part->right_corner] = 1;
    double left = wide * across / 2 - part->width * FINE / 2, low = high * up / 3 - part->height * FINE / 2;
    for (uint32_t i = 0; i < part->pins; i++) {
        part->goal_x[i] = part->goal_x[i] * FINE + left, part->goal_y[i] = part->goal_y[i] * FINE + low;
        part->still[part->pinned[i]] = 1;
    }
}

// Whether a point may lie at a place: all triangles with it keep their direction, and none gets smaller than it is and very small.
static int may_lie(const struct part *part, uint32_t point, int32_t x, int32_t y) {
    uint32_t first = part->first[point], last = part->first[point + 1];
    for (uint32_t i = first; i < last; i++) {
        uint32_t a = part->near[i], b = part->near[i + 1 < last ? i + 1 : first];
        int64_t area = twice_area(x, y, part->x[a], part->y[a], part->x[b], part->y[b]);
        if (area <= FINE * FINE / 16 && (area <= 0 || area < twice_area(part->x[point], part->y[point], part->x[a], part->y[a], part->x[b], part->y[b])))
            return 0;
    }
    return 1;
}

// Moves a point to a place, or half the way there, and so on.
static void move_towards(struct part *part, uint32_t point, double x, double y) {
    double dx = x - part->x[point], dy = y - part->y[point];
    for (int tries = 0; tries < 5; tries++, dx /= 2, dy /= 2) {
        int32_t to_x = (int32_t)(part->x[point] + dx + 0.5), to_y = (int32_t)(part->y[point] + dy + 0.5);
        if (to_x == part->x[point] && to_y == part->y[point]) return;
        if (!may_lie(part, point, to_x, to_y)) continue;
        part->x[point] = to_x, part->y[point] = to_y;
        return;
    }
}

// ---- The solver: every point in the weighted middle of its neighbours ----

static void link(struct part *part, uint32_t from, uint32_t to, double weight) {
    if (part->links == LINKS) return; // then the places are no good, and not taken
    uint32_t at = part->links++;
    part->link_to[at] = (uint16_t)to, part->link_weight[at] = weight, part->link_next[at] = part->link_first[from];
    part->link_first[from] = at, part->degree[from]++;
}

// The links of all points that move; what pinned points pull them with is kept apart.
static void make_links(struct part *part) {
    part->links = part->marks = 0;
    for (uint32_t point = 0; point < part->points; point++) {
        double *pull = part->pull[point];
        pull[0] = pull[1] = pull[2] = 0;
        part->link_first[point] = FREE, part->degree[point] = part->marked[point] = 0;
        if (part->still[point]) continue;
        for (uint32_t i = part->first[point]; i < part->first[point + 1]; i++) {
            uint32_t other = part->near[i];
            double weight = part->weight[i];
            if (!part->still[other])
                link(part, point, other, weight);
            else
                pull[0] += weight, pull[1] += weight * part->at[0][other], pull[2] += weight * part->at[1][other];
        }
    }
}

// Takes the link to a point out of another's, and marks the rest. Gives its weight.
static double unlink(struct part *part, uint32_t from, uint32_t to) {
    double weight = 0;
    part->marks++;
    for (uint32_t *at = &part->link_first[from]; *at != FREE;) {
        uint32_t one = *at;
        if (part->link_to[one] == to) {
            weight = part->link_weight[one], *at = part->link_next[one], part->degree[from]--;
        } else {
            part->marked[part->link_to[one]] = part->marks, part->mark_at[part->link_to[one]] = one, at = &part->link_next[one];
        }
    }
    return weight;
}

// Takes a point away: its links become links between its neighbours. Nothing is subtracted, so weights of any size are safe.
static void eliminate(struct part *part, uint32_t point) {
    double total = part->pull[point][0];
    for (uint32_t at = part->link_first[point]; at != FREE; at = part->link_next[at]) total += part->link_weight[at];
    part->total[point] = total;
    for (uint32_t at = part->link_first[point]; at != FREE; at = part->link_next[at]) {
        uint32_t from = part->link_to[at];
        double share = unlink(part, from, point) / total;
        for (uint32_t k = 0; k < 3; k++) part->pull[from][k] += share * part->pull[point][k];
        for (uint32_t other = part->link_first[point]; other != FREE; other = part->link_next[other]) {
            uint32_t to = part->link_to[other];
            if (to == from) continue;
            if (part->marked[to] == part->marks)
                part->link_weight[part->mark_at[to]] += share * part->link_weight[other];
            else
                link(part, from, to, share * part->link_weight[other]);
        }
    }
}

// Takes all points away, those of few neighbours first, and puts them back in the opposite order. Gives whether there was room.
static int solve(struct part *part) {
    uint32_t count = 0, due = 0;
    make_links(part);
    for (uint32_t p = 0; p < part->points; p++) part->gone[p] = part->still[p], due += !part->still[p];
    for (uint32_t most = 3; count < due && part->links < LINKS; most++) {
        uint32_t before = count;
        for (uint32_t p = 0; p < part->points; p++)
            if (!part->gone[p] && part->degree[p] <= most) eliminate(part, p), part->gone[p] = 1, part->order[count++] = (uint16_t)p;
        if (count > before) most = 2;
    }
    while (part->links < LINKS && count > 0) {
        uint32_t p = part->order[--count];
        double x = part->pull[p][1], y = part->pull[p][2];
        for (uint32_t at = part->link_first[p]; at != FREE; at = part->link_next[at])
            x += part->link_weight[at] * part->at[0][part->link_to[at]], y += part->link_weight[at] * part->at[1][part->link_to[at]];
        part->at[0][p] = x / part->total[p], part->at[1][p] = y / part->total[p];
    }
    return part->links < LINKS;
}

static void equal_weights(struct part *part) {
    for (uint32_t i = 0; i < part->first[part->points]; i++) part->weight[i] = 1;
}

// The tangent of half the angle between two neighbours of a point, as seen from it.
static double half_tangent(const struct part *part, uint32_t point, uint32_t a, uint32_t b) {
    double ax = (double)part->x[a] - part->x[point], ay = (double)part->y[a] - part->y[point];
    double bx = (double)part->x[b] - part->x[point], by = (double)part->y[b] - part->y[point];
    double lengths = drawing_root((ax * ax + ay * ay) * (bx * bx + by * by));
    return (ax * by - ay * bx) / (lengths + ax * bx + ay * by);
}

static double area_at(const struct part *part, uint32_t point, uint32_t a, uint32_t b) {
    return (double)twice_area(part->x[point], part->y[point], part->x[a], part->y[a], part->x[b], part->y[b]);
}

// The weights for which a point lies where it is, and the areas beside its links.
static void present_weights(struct part *part, uint32_t point) {
    uint32_t first = part->first[point], last = part->first[point + 1], end = part->near[last - 1];
    double before = half_tangent(part, point, end, part->near[first]), area = area_at(part, point, end, part->near[first]), sum = 0;
    for (uint32_t i = first; i < last; i++) {
        uint32_t a = part->near[i], b = part->near[i + 1 < last ? i + 1 : first];
        double behind = half_tangent(part, point, a, b), next = area_at(part, point, a, b);
        double x = (double)part->x[a] - part->x[point], y = (double)part->y[a] - part->y[point];
        part->weight[i] = (before + behind) / drawing_root(x * x + y * y);
        part->beside[i] = area + next;
        sum += part->weight[i], before = behind, area = next;
    }
    for (uint32_t i = first; i < last; i++) part->weight[i] /= sum;
}

// The present weights. A share of them may be even; and links beside large triangles may count for more: by their area, or by the root of it, or the root of
// that.
static void next_weights(struct part *part, double even, int roots) {
    for (uint32_t point = 0; point < part->points; point++) {
        if (part->still[point]) continue;
        present_weights(part, point);
        for (uint32_t i = part->first[point]; i < part->first[point + 1]; i++) {
            double factor = roots < 0 ? 1 : part->beside[i];
            for (int root = 0; root < roots; root++) factor = drawing_root(factor);
            part->weight[i] = (part->weight[i] * (1 - even) + even / (part->first[point + 1] - part->first[point])) * factor;
        }
    }
}

// Whether the places are some, and not beyond the triangle round all.
static int in_range(const struct part *part) {
    for (uint32_t p = 0; p < part->points; p++)
        if (!(part->at[0][p] >= 0 && part->at[0][p] <= part->x[part->right_corner] && part->at[1][p] >= 0 && part->at[1][p] <= part->y[part->top_corner]))
            return 0;
    return 1;
}

static int all_turned(const struct part *part) {
    const int32_t *x = part->x, *y = part->y;
    for (uint32_t half = 0; half < 3 * part->triangles; half += 3) {
        uint32_t a = part->corner[half], b = part->corner[half + 1], c = part->corner[half + 2];
        if (twice_area(x[a], y[a], x[b], y[b], x[c], y[c]) <= 0) return 0;
    }
    return 1;
}

// Exchanges the places and those that the solver found.
static void exchange(struct part *part) {
    for (uint32_t p = 0; p < part->points; p++) {
        int32_t x = part->x[p], y = part->y[p];
        part->x[p] = (int32_t)(part->at[0][p] + 0.5), part->y[p] = (int32_t)(part->at[1][p] + 0.5);
        part->at[0][p] = x, part->at[1][p] = y;
    }
}

// Takes the solver's places if all triangles keep their direction with them.
static int take_places(struct part *part) {
    if (!in_range(part)) return 0;
    exchange(part);
    if (all_turned(part)) return 1;
    exchange(part);
    return 0;
}

// Places for the weights, with the pinned points at their goals; taken if all triangles keep their direction.
static int solved(struct part *part) {
    for (uint32_t p = 0; p < part->points; p++) part->at[0][p] = part->x[p], part->at[1][p] = part->y[p];
    for (uint32_t i = 0; i < part->pins; i++) part->at[0][part->pinned[i]] = part->goal_x[i], part->at[1][part->pinned[i]] = part->goal_y[i];
    return solve(part) && take_places(part);
}

// Every point towards the places that the solver found, as far as it may.
static void approach(struct part *part) {
    if (!in_range(part)) return;
    for (uint32_t p = 0; p < part->points; p++)
        if (!part->still[p]) move_towards(part, p, part->at[0][p], part->at[1][p]);
}

void part_smooth(struct part *part) {
    double even = EVEN;
    int roots = 0;
    stretch(part);
    equal_weights(part);
    if (!solved(part)) {
        next_weights(part, 0, -1), even = 0;
        if (!solved(part)) return; // the grid's places stay
    }
    uint32_t rounds = LINKS_MADE / (part->links + 1);
    rounds = even > 0 ? 2 * FEWEST : rounds < FEWEST ? FEWEST : rounds > MOST ? MOST : rounds;
    for (uint32_t round = 0, failures = 0; round < rounds && failures < FAILURES; round++) {
        next_weights(part, even, roots);
        if (solved(part)) continue;
        failures++;
        if (even > 0) {
            even = 0;
            continue;
        }
        approach(part);
        if (roots < 2) roots++;
    }
}
