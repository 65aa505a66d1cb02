// What the files of drawing/ share. Not for callers: drawing.h is.
#ifndef DRAWING_INSIDE_H
#define DRAWING_INSIDE_H

#include "drawing.h"

#if defined(__clang__)
#pragma STDC FP_CONTRACT OFF // gcc has an option for it
#endif

// The sheet's faces and parts, numbered in order of their lowest darts.
struct map {
    uint32_t faces, parts;
    uint16_t face[DRAWING_DARTS]; // left of each dart
    uint16_t lowest[DRAWING_FACES]; // of each face, its lowest dart
    uint16_t part[DRAWING_NODES]; // of each node
    uint16_t outer[DRAWING_NODES]; // of each part, a dart on the face that lies outside
};

// Fills the map, or says DRAWING_NOT_FLAT.
uint32_t drawing_map(const struct drawing_sheet *sheet, struct map *map);

// A channel as short straight lines, one after another: at most LINE_POINTS points, in hundredths of a pixel.
#define STEPS 12 // of a quadratic piece
#define LINE_POINTS (STEPS * DRAWING_BENDS + 2)
uint32_t drawing_line(const struct drawing_sheet *sheet, const struct drawing_places *places, uint32_t channel, int32_t *x, int32_t *y);

// Whether places are some: none is too far, and the bends are in order, two or more for a loop.
int drawing_in_range(const struct drawing_sheet *sheet, const struct drawing_places *places);

static inline uint32_t face_step(const struct drawing_sheet *sheet, uint32_t dart) { return sheet->turns[dart ^ 1]; }

// Twice the area of a triangle: above zero if its corners run clockwise as seen, where y grows downwards; the other way round where it grows upwards.
static inline int64_t twice_area(int32_t px, int32_t py, int32_t qx, int32_t qy, int32_t rx, int32_t ry) {
    return (int64_t)(qx - px) * (ry - py) - (int64_t)(qy - py) * (rx - px);
}

#define FOLLOW_WORK (3 * 1024 * 1024 + 512 * 1024) // what drawing_follows needs of `work`

double drawing_root(double number); // its square drawing_root, 0 of what is below zero

#endif
