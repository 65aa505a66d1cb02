// Whether places show a sheet: the turns at each node, and crossings. Directions and crossings are compared in whole numbers.
#include "inside.h"

#define SEGMENTS (LINE_POINTS + DRAWING_CHANNELS)

struct follow {
    struct map map;
    int32_t line_x[LINE_POINTS], line_y[LINE_POINTS];
    int32_t x[SEGMENTS][2], y[SEGMENTS][2]; // of each piece of a line, from left to right
    uint16_t channel[SEGMENTS];
    uint32_t order[SEGMENTS];
};
_Static_assert(sizeof(struct follow) <= FOLLOW_WORK, "FOLLOW_WORK");

// The direction in which a dart leaves its tail.
static void direction(const struct drawing_sheet *sheet, const struct drawing_places *places, uint32_t dart, int64_t way[2]) {
    uint32_t channel = dart / 2, tail = sheet->tails[dart], head = sheet->tails[dart ^ 1], first = places->first[channel], last = places->first[channel + 1];
    uint32_t bend = dart % 2 ? last - 1 : first;
    int64_t x = first == last ? places->x[head] : places->bend_x[bend], y = first == last ? places->y[head] : places->bend_y[bend];
    way[0] = x - places->x[tail], way[1] = y - places->y[tail];
}

// How far clockwise a direction is from the right, in halves of a turn.
static int half_of(const int64_t way[2]) { return way[1] < 0 || (way[1] == 0 && way[0] < 0); }

// Above zero if the second direction is further clockwise than the first, from the right on; 0 if they are the same.
static int64_t further(const int64_t one[2], const int64_t other[2]) {
    if (half_of(one) != half_of(other)) return half_of(other) - half_of(one);
    return one[0] * other[1] - one[1] * other[0];
}

// From dart to dart by the turn, directions go clockwise and once round: they get less far just once.
static int turns_right(const struct drawing_sheet *sheet, const struct drawing_places *places, uint32_t start) {
    uint32_t dart = start, falls = 0;
    if (sheet->turns[start] == start) return 1;
    do {
        int64_t one[2], other[2];
        direction(sheet, places, dart, one);
        dart = sheet->turns[dart];
        direction(sheet, places, dart, other);
        int64_t more = further(one, other);
        if (more == 0 || (!one[0] && !one[1])) return 0;
        falls += more < 0;
    } while (dart != start);
    return falls == 1;
}

// The pieces of all lines, by their left ends.
static uint32_t find_pieces(const struct drawing_sheet *sheet, const struct drawing_places *places, struct follow *all) {
    uint32_t count = 0;
    for (uint32_t channel = 0; channel < sheet->channels; channel++) {
        uint32_t points = drawing_line(sheet, places, channel, all->line_x, all->line_y);
        for (uint32_t i = 0; i + 1 < points; i++) {
            uint32_t left = all->line_x[i] > all->line_x[i + 1];
            all->x[count][left] = all->line_x[i], all->y[count][left] = all->line_y[i];
            all->x[count][!left] = all->line_x[i + 1], all->y[count][!left] = all->line_y[i + 1];
            all->channel[count] = (uint16_t)channel, all->order[count] = count, count++;
        }
    }
    for (uint32_t gap = count / 2; gap > 0; gap /= 2)
        for (uint32_t i = gap; i < count; i++)
            for (uint32_t k = i; k >= gap && all->x[all->order[k]][0] < all->x[all->order[k - gap]][0]; k -= gap) {
                uint32_t kept = all->order[k];
                all->order[k] = all->order[k - gap], all->order[k - gap] = kept;
            }
    return count;
}

static int sign(int64_t number) { return (number > 0) - (number < 0); }

// Which side of one piece the ends of another lie on: -1 if both on one, 0 if an end is on its line, 1 if on two.
static int parted(const struct follow *all, uint32_t one, uint32_t other) {
    const int32_t *x = all->x[one], *y = all->y[one];
    int a = sign(twice_area(x[0], y[0], x[1], y[1], all->x[other][0], all->y[other][0])),
        b = sign(twice_area(x[0], y[0], x[1], y[1], all->x[other][1], all->y[other][1]));
    return a * b < 0 ? 1 : a * b > 0 ? -1 : 0;
}

static int share_an_end(const struct follow *all, uint32_t one, uint32_t other) {
    for (uint32_t i = 0; i < 4; i++)
        if (all->x[one][i / 2] == all->x[other][i % 2] && all->y[one][i / 2] == all->y[other][i % 2]) return 1;
    return 0;
}

// Whether two pieces meet elsewhere than at an end of both.
static int meet(const struct follow *all, uint32_t one, uint32_t other) {
    const int32_t *y = all->y[one], *z = all->y[other];
    int32_t low = y[0] < y[1] ? y[0] : y[1], high = y[0] < y[1] ? y[1] : y[0], other_low = z[0] < z[1] ? z[0] : z[1], other_high = z[0] < z[1] ? z[1] : z[0];
    if (high < other_low || other_high < low) return 0;
    return parted(all, one, other) >= 0 && parted(all, other, one) >= 0 && !share_an_end(all, one, other);
}

uint32_t drawing_follows(const struct drawing_sheet *sheet, const struct drawing_places *places, void *work, uint32_t *at) {
    struct follow *all = work;
    *at = 0;
    if (drawing_map(sheet, &all->map) != DRAWING_DONE) return DRAWING_NOT_FLAT;
    if (!drawing_in_range(sheet, places)) return DRAWING_TOO_FAR;
    for (uint32_t dart = 0; dart < 2u * sheet->channels; dart++) {
        *at = sheet->tails[dart];
        if (!turns_right(sheet, places, dart)) return DRAWING_NOT_THE_TURNS;
    }
    uint32_t count = find_pieces(sheet, places, all);
    for (uint32_t i = 0; i < count; i++)
        for (uint32_t k = i + 1; k < count && all->x[all->order[k]][0] <= all->x[all->order[i]][1]; k++) {
            *at = all->channel[all->order[i]];
            if (meet(all, all->order[i], all->order[k])) return DRAWING_CROSSES;
        }
    *at = 0;
    return DRAWING_DONE;
}
