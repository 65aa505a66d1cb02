// One part of a sheet while its places are made: its nodes, edges and darts in their order with numbers of their own, and its triangulation. Not for callers.
#ifndef DRAWING_PART_H
#define DRAWING_PART_H

#include "inside.h"

#define POINTS 4800 // of a triangulated part: 9 for each channel and 5 more, at most
#define TRIANGLES (2 * POINTS)
#define WALK 3200 // the points round a face: three for each dart, at most
#define TABLE 65536 // a power of two, more than twice the half-edges
#define LINKS 100000 // of the solver: three times what was ever needed
#define FINE 4096 // steps of a pixel
#define NONE 0xffff
#define FREE 0xffffffff

struct part {
    uint32_t nodes, edges, points, triangles, pins;
    uint16_t node[DRAWING_NODES], edge[DRAWING_CHANNELS], local[DRAWING_NODES];
    uint16_t dart[DRAWING_DARTS]; // the part's number of a dart of the sheet
    uint16_t tail[DRAWING_DARTS], turn[DRAWING_DARTS];
    uint16_t way[DRAWING_DARTS]; // of an edge's two: the points on its way, the same one twice where it is no loop

    // The triangles, those outside last, and the points round the outside.
    uint16_t corner[3 * TRIANGLES]; // anticlockwise as seen
    uint32_t outside; // the first triangle outside
    uint32_t left_corner, right_corner, top_corner; // of a triangle round all, which stays where it is
    uint16_t walk[WALK], pinned[WALK]; // clockwise
    uint32_t turning[3]; // the pinned points at the bottom, at the left and at the right, where the corners of the triangle change
    double along[WALK], goal_x[WALK], goal_y[WALK]; // of the pinned points: how far round the frame, of four, and their places on it
    double width, height; // of the frame, in pixels

    // Half-edges, 3 * triangle + corner, and the points next to each point.
    uint32_t table[TABLE], twin[3 * TRIANGLES]; // half-edges by their ends, plus 1; of each the one the other way, or itself
    uint32_t first[POINTS + 1];
    uint16_t near[4 * TRIANGLES]; // anticlockwise; a point's are first[point] to first[point + 1] - 1

    // Orders and lists.
    uint8_t outer[POINTS], gone[POINTS], still[POINTS];
    uint16_t seen[POINTS], before[POINTS], after[POINTS], chords[POINTS], order[POINTS], left[POINTS], right[POINTS], above[POINTS], queue[8 * POINTS];
    uint32_t list[TRIANGLES], out[TRIANGLES];
    int32_t flow[3 * TRIANGLES], sum[3][POINTS];

    // Places: y grows upwards. The solver's: as doubles, with weights of the links to neighbours, as `near` has them.
    int32_t x[POINTS], y[POINTS];
    double at[2][POINTS], weight[4 * TRIANGLES], beside[4 * TRIANGLES];
    uint32_t links, marks, link_first[POINTS], link_next[LINKS], marked[POINTS], mark_at[POINTS], degree[POINTS];
    uint16_t link_to[LINKS];
    double link_weight[LINKS], pull[POINTS][3], total[POINTS];
};

void part_take(const struct drawing_sheet *sheet, const struct map *map, uint32_t which, struct part *part);
void part_triangulate(struct part *part, uint32_t outer); // triangulate.c
uint32_t part_half(const struct part *part, uint32_t from, uint32_t to); // the half-edge between two points
void part_grid(struct part *part); // grid.c: places without a crossing
void part_smooth(struct part *part); // tutte.c: better ones
uint32_t part_darts(const struct part *part, uint32_t node); // how many leave a node

#endif
