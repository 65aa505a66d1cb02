// Places of a triangulated part on a grid, without a crossing: Schnyder's (1990), from the order of de Fraysseix, Pach and Pollack (1990). Each point has three
// ways to the corners of the triangle round all, which part the drawing into three regions; the weights of the triangles in them are the point's coordinates.
// For a link and any other point, one of that point's regions holds both ends of the link, and so the whole region of either: so no link passes a point by the
// wrong side, whatever the weights, if each is above zero.
#include "part.h"

#define INSIDE 16 // the weight of a triangle of the drawing; one outside has 1

// ---- The order, from the last point to the first ----

static void push_free(struct part *part, uint32_t point, uint32_t *end) {
    if (part->outer[point] == 1 && !part->gone[point] && !part->chords[point] && *end < 8 * POINTS) part->queue[(*end)++] = (uint16_t)point;
}

// A point comes to lie outside: its links to others outside, but for those beside it, are chords.
static void count_chords(struct part *part, uint32_t point) {
    for (uint32_t i = part->first[point]; i < part->first[point + 1]; i++) {
        uint32_t other = part->near[i];
        if (part->gone[other] || !part->outer[other] || other == part->before[point] || other == part->after[point]) continue;
        part->chords[point]++, part->chords[other]++;
    }
    part->outer[point] = 1;
}

// Takes a point away: those between the ones beside it come to lie outside.
static void take_away(struct part *part, uint32_t point, uint32_t *end) {
    uint32_t left = part->before[point], right = part->after[point], size = part->first[point + 1] - part->first[point], from = 0, last = left;
    const uint16_t *near = &part->near[part->first[point]];
    part->gone[point] = 1, part->left[point] = (uint16_t)left, part->right[point] = (uint16_t)right;
    while (near[from] != left) from++;
    for (uint32_t i = 1; i < size; i++) {
        uint32_t next = near[(from + i) % size];
        part->after[last] = (uint16_t)next, part->before[next] = (uint16_t)last, last = next;
        if (next == right) break;
    }
    if (part->after[left] == right) {
        if (part->chords[left]) part->chords[left]--;
        if (part->chords[right]) part->chords[right]--;
    }
    for (uint32_t next = part->after[left]; next != right; next = part->after[next]) count_chords(part, next), part->above[next] = (uint16_t)point;
    for (uint32_t next = left;; next = part->after[next]) {
        push_free(part, next, end);
        if (next == right) break;
    }
}

// The base runs from the left corner to the right one; both stay to the end (outer is 2 there).
static uint32_t find_order(struct part *part) {
    uint32_t end = 0, count = 0, corner[3] = {part->left_corner, part->top_corner, part->right_corner};
    for (uint32_t point = 0; point < part->points; point++) part->outer[point] = part->gone[point] = 0, part->chords[point] = 0;
    for (uint32_t i = 0; i < 3; i++) {
        part->outer[corner[i]] = i == 1 ? 1 : 2;
        part->before[corner[i]] = (uint16_t)(i ? corner[i - 1] : NONE), part->after[corner[i]] = (uint16_t)(i < 2 ? corner[i + 1] : NONE);
    }
    push_free(part, part->top_corner, &end);
    for (uint32_t at = 0; at < end; at++) {
        uint32_t point = part->queue[at];
        if (part->gone[point] || part->chords[point]) continue;
        part->order[count++] = (uint16_t)point;
        take_away(part, point, &end);
    }
    return count;
}

// ---- Schnyder's places ----

// Weights of the triangles flow to the base, each triangle's to one beside it and with that one's further on. What flows through a side, out of the triangle on
// its left: the sum round a region is the weight in it.
static void find_flows(struct part *part) {
    uint32_t base = part_half(part, part->left_corner, part->right_corner), count = 0;
    uint32_t *list = part->list, *out = part->out;
    for (uint32_t t = 0; t < part->triangles; t++) out[t] = FREE;
    list[count++] = base / 3, out[base / 3] = base;
    for (uint32_t at = 0; at < count; at++)
        for (uint32_t half = 3 * list[at]; half < 3 * list[at] + 3; half++) {
            uint32_t twin = part->twin[half];
            if (twin != half && out[twin / 3] == FREE) out[twin / 3] = twin, list[count++] = twin / 3;
        }
    for (uint32_t half = 0; half < 3 * part->triangles; half++) part->flow[half] = 0;
    for (uint32_t at = count; at-- > 0;) {
        uint32_t t = list[at], side = out[t];
        int32_t sum = t < part->outside ? INSIDE : 1;
        for (uint32_t half = 3 * t; half < 3 * t + 3; half++)
            if (half != side) sum -= part->flow[half]; // what flows in is below zero
        part->flow[side] = sum;
        if (part->twin[side] != side) part->flow[part->twin[side]] = -sum;
    }
}

static int32_t flow_between(const struct part *part, uint32_t from, uint32_t to) { return part->flow[part_half(part, from, to)]; }

// Each point's coordinates are the weights of the three regions between its ways to the corners: to the left, to the right and to the top.
void part_grid(struct part *part) {
    uint32_t count = find_order(part), a = part->left_corner, b = part->right_corner, d = part->top_corner;
    int32_t *left = part->sum[0], *right = part->sum[1], *top = part->sum[2];
    find_flows(part);
    int32_t base = flow_between(part, a, b), side = flow_between(part, d, a), all = base + side + flow_between(part, b, d);
    left[a] = right[b] = top[d] = 0;
    for (uint32_t at = count; at-- > 1;) {
        uint32_t point = part->order[at];
        left[point] = flow_between(part, point, part->left[point]) + left[part->left[point]];
        right[point] = flow_between(part, point, part->right[point]) + right[part->right[point]];
    }
    for (uint32_t at = 1; at < count; at++) {
        uint32_t point = part->order[at];
        top[point] = flow_between(part, point, part->above[point]) + top[part->above[point]];
        part->y[point] = base + left[point] - right[point];
        part->x[point] = 2 * (side + top[point] - left[point]) + part->y[point];
    }
    part->x[a] = part->y[a] = part->y[b] = 0;
    part->x[b] = 2 * all, part->x[d] = part->y[d] = all;
}
