// Faces and parts of a sheet, from its turns.
#include "inside.h"

#define NOWHERE 0xffff

// Counts, ends and turns are some; a turn has the same tail; no two darts have one turn.
static int sound(const struct drawing_sheet *sheet, uint16_t *seen) {
    uint32_t darts = 2u * sheet->channels;
    if (sheet->nodes < 1 || sheet->nodes > DRAWING_NODES || darts < 2 || darts > DRAWING_DARTS) return 0;
    if (sheet->outer < DRAWING_NONE || sheet->outer >= (int32_t)darts) return 0;
    for (uint32_t dart = 0; dart < darts; dart++) seen[dart] = 0;
    for (uint32_t dart = 0; dart < darts; dart++) {
        uint32_t turn = sheet->turns[dart];
        if (sheet->tails[dart] >= sheet->nodes || turn >= darts || sheet->tails[turn] != sheet->tails[dart] || seen[turn]++) return 0;
    }
    return 1;
}

static void find_faces(const struct drawing_sheet *sheet, struct map *map) {
    uint32_t darts = 2u * sheet->channels;
    for (uint32_t dart = 0; dart < darts; dart++) map->face[dart] = NOWHERE;
    map->faces = 0;
    for (uint32_t dart = 0; dart < darts; dart++) {
        if (map->face[dart] != NOWHERE) continue;
        map->lowest[map->faces] = (uint16_t)dart;
        for (uint32_t next = dart; map->face[next] == NOWHERE; next = face_step(sheet, next)) map->face[next] = (uint16_t)map->faces;
        map->faces++;
    }
}

// Each node's part is named by the lowest node that its channels lead to; then the names become numbers.
static void find_parts(const struct drawing_sheet *sheet, struct map *map, uint16_t *number) {
    for (uint32_t node = 0; node < sheet->nodes; node++) map->part[node] = (uint16_t)node;
    for (int more = 1; more;) {
        more = 0;
        for (uint32_t dart = 0; dart < 2u * sheet->channels; dart++) {
            uint16_t *one = &map->part[sheet->tails[dart]], *other = &map->part[sheet->tails[dart ^ 1]];
            while (map->part[*other] < *other) *other = map->part[*other];
            if (*other < *one) *one = *other, more = 1;
        }
    }
    map->parts = 0;
    for (uint32_t node = 0; node < sheet->nodes; node++) {
        if (map->part[node] == node) number[node] = (uint16_t)map->parts++;
        map->part[node] = number[map->part[node]];
    }
}

// Of each part: every node is on one round of turns, and nodes + faces = channels + 2.
static int flat(const struct drawing_sheet *sheet, const struct map *map, int32_t *left, uint16_t *seen) {
    uint32_t darts = 2u * sheet->channels, rounds = 0;
    for (uint32_t part = 0; part < map->parts; part++) left[part] = -2;
    for (uint32_t node = 0; node < sheet->nodes; node++) left[map->part[node]]++, seen[node] = 0;
    for (uint32_t dart = 0; dart < darts; dart++) {
        uint32_t part = map->part[sheet->tails[dart]];
        left[part] += (map->lowest[map->face[dart]] == dart) - (int32_t)(dart & 1);
        if (seen[sheet->tails[dart]]) continue;
        uint32_t at = dart;
        do seen[sheet->tails[dart]]++, rounds++, at = sheet->turns[at];
        while (at != dart);
    }
    for (uint32_t part = 0; part < map->parts; part++)
        if (left[part]) return 0;
    return rounds == darts;
}

// Of each part, the face of the most darts, and of those the lowest-numbered.
static void longest_faces(const struct drawing_sheet *sheet, struct map *map, int32_t *most) {
    for (uint32_t part = 0; part < map->parts; part++) most[part] = 0;
    for (uint32_t face = 0; face < map->faces; face++) {
        uint32_t start = map->lowest[face], part = map->part[sheet->tails[start]], dart = start;
        int32_t count = 0;
        do count++, dart = face_step(sheet, dart);
        while (dart != start);
        if (count > most[part]) most[part] = count, map->outer[part] = (uint16_t)start;
    }
}

uint32_t drawing_map(const struct drawing_sheet *sheet, struct map *map) {
    uint16_t number[DRAWING_DARTS];
    int32_t left[DRAWING_NODES];
    if (!sound(sheet, number)) return DRAWING_NOT_FLAT;
    find_faces(sheet, map);
    find_parts(sheet, map, number);
    if (!flat(sheet, map, left, number)) return DRAWING_NOT_FLAT;
    longest_faces(sheet, map, left);
    if (sheet->outer >= 0) map->outer[map->part[sheet->tails[sheet->outer]]] = (uint16_t)sheet->outer;
    return DRAWING_DONE;
}

uint32_t drawing_line(const struct drawing_sheet *sheet, const struct drawing_places *places, uint32_t channel, int32_t *x, int32_t *y) {
    uint32_t tail = sheet->tails[2 * channel], head = sheet->tails[2 * channel + 1], first = places->first[channel], last = places->first[channel + 1],
             count = 0;
    x[count] = places->x[tail], y[count++] = places->y[tail];
    for (uint32_t bend = first; bend < last; bend++) {
        int64_t ax = x[count - 1], ay = y[count - 1], bx = places->bend_x[bend], by = places->bend_y[bend];
        if (places->sharp[channel]) {
            x[count] = (int32_t)bx, y[count++] = (int32_t)by;
            continue;
        }
        int64_t cx = bend + 1 < last ? (bx + places->bend_x[bend + 1]) / 2 : places->x[head],
                cy = bend + 1 < last ? (by + places->bend_y[bend + 1]) / 2 : places->y[head];
        for (int64_t t = 1, u = STEPS - 1; t <= STEPS; t++, u--) {
            x[count] = (int32_t)((u * u * ax + 2 * u * t * bx + t * t * cx) / (STEPS * STEPS));
            y[count++] = (int32_t)((u * u * ay + 2 * u * t * by + t * t * cy) / (STEPS * STEPS));
        }
    }
    if (first == last || places->sharp[channel]) x[count] = places->x[head], y[count++] = places->y[head];
    return count;
}

// The instruction: of clang whatever the options are, of others with -fno-math-errno.
#ifdef __has_builtin
#if __has_builtin(__builtin_elementwise_sqrt)
#define SQUARE_ROOT __builtin_elementwise_sqrt
#endif
#endif
#ifndef SQUARE_ROOT
#define SQUARE_ROOT __builtin_sqrt
#endif

double drawing_root(double number) { return number > 0 ? SQUARE_ROOT(number) : 0; }

int drawing_in_range(const struct drawing_sheet *sheet, const struct drawing_places *places) {
    uint32_t last = places->first[sheet->channels];
    int good = last <= DRAWING_BENDS && places->first[0] == 0;
    for (uint32_t channel = 0; channel < sheet->channels && good; channel++)
        good = places->first[channel] <= places->first[channel + 1] &&
               (sheet->tails[2 * channel] != sheet->tails[2 * channel + 1] || places->first[channel + 1] - places->first[channel] >= 2);
    for (uint32_t node = 0; node < sheet->nodes; node++)
        good &= places->x[node] <= DRAWING_MOST && places->x[node] >= -DRAWING_MOST && places->y[node] <= DRAWING_MOST && places->y[node] >= -DRAWING_MOST;
    for (uint32_t i = 0; i < last && good; i++)
        good =
            places->bend_x[i] <= DRAWING_MOST && places->bend_x[i] >= -DRAWING_MOST && places->bend_y[i] <= DRAWING_MOST && places->bend_y[i] >= -DRAWING_MOST;
    return good;
}
