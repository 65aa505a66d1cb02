// The picture of a drawing as SVG: channels with arrowheads, numbers and limits, nodes, a set as a band, levels on faces, marks of what is wrong, and what the
// marks mean; or an exam page, in black and white with ruled lines. Places are hundredths of a pixel; doubles are only added, multiplied, divided and rooted.
#include "inside.h"

#define RADIUS 14 // of a node, in pixels
#define ASIDE 96 // margins, in pixels
#define ABOVE 100
#define BELOW 88
#define NARROWEST 800
#define RULED 30 // between ruled lines
#define BOXES (2 * DRAWING_CHANNELS + DRAWING_NODES + 4)

#define INK "#222"
#define GREY "#999"
#define FLOW "#2b7bba"
#define FULL "#e08214"
#define CUT "#c51b1b"
#define BAND "#ffe3a3"
#define INSIDE "#ffc94d"
#define SOURCE "#1a7f37"
#define SINK "#6f42c1"
#define OUTER "#e4eef7"
#define LEVEL "#0b6e6e"
#define MINUS "\xe2\x88\x92"
#define SPACE "\xc2\xa0"

struct box {
    double left, top, right, bottom;
};

struct picture {
    const struct drawing_sheet *sheet;
    const struct drawing_places *places;
    const struct drawing_shown *shown;
    uint8_t *text;
    uint32_t length, used; // bytes lent; bytes due so far
    struct map map;
    uint32_t start[DRAWING_CHANNELS + 1]; // of each channel, its first point; in pixels of the picture
    double x[LINE_POINTS + 2 * DRAWING_CHANNELS], y[LINE_POINTS + 2 * DRAWING_CHANNELS], node_x[DRAWING_NODES], node_y[DRAWING_NODES];
    int32_t line_x[LINE_POINTS], line_y[LINE_POINTS];
    struct box box[BOXES]; // what is not to be written over
    struct box channel[DRAWING_CHANNELS]; // round each channel
    uint32_t boxes, width, height;
    int32_t greatest; // setting
};
_Static_assert(sizeof(struct picture) <= DRAWING_WORK, "DRAWING_WORK");

// ---- Text ----

static void put(struct picture *to, const char *words) {
    for (; *words; words++, to->used++)
        if (to->used < to->length) to->text[to->used] = (uint8_t)*words;
}

static void put_digits(struct picture *to, uint64_t number, uint32_t least) {
    char digits[24];
    uint32_t at = 23;
    digits[at] = 0;
    do digits[--at] = (char)('0' + number % 10), number /= 10;
    while (number || 23 - at < least);
    put(to, digits + at);
}

static void put_number(struct picture *to, int64_t number) {
    if (number < 0) put(to, MINUS);
    put_digits(to, (uint64_t)(number < 0 ? -number : number), 1);
}

static uint32_t length_of(int64_t number) {
    uint32_t count = number < 0 ? 2 : 1;
    for (number = number < 0 ? -number : number; number > 9; number /= 10) count++;
    return count;
}

// A length in pixels, with two digits behind the point.
static void put_pixels(struct picture *to, double pixels) {
    int64_t hundredths = (int64_t)(pixels * 100 + (pixels < 0 ? -0.5 : 0.5));
    if (hundredths < 0) put(to, "-"), hundredths = -hundredths;
    put_digits(to, (uint64_t)(hundredths / 100), 1);
    if (hundredths % 100) put(to, "."), put_digits(to, (uint64_t)(hundredths % 100), 2);
}

static void put_pair(struct picture *to, double x, const char *between, double y) { put_pixels(to, x), put(to, between), put_pixels(to, y); }

// Begins a text that has a white rim; what it says and "</text>" follow.
static void open_text(struct picture *to, double x, double y, uint32_t size, const char *fill, const char *anchor, int bold) {
    put(to, "<text x=\""), put_pair(to, x, "\" y=\"", y), put(to, "\" font-size=\""), put_number(to, size), put(to, "\" fill=\""), put(to, fill);
    put(to, "\" text-anchor=\""), put(to, anchor), put(to, bold ? "\" font-weight=\"bold\"" : "\"");
    put(to, " stroke=\"#fff\" stroke-width=\"3\" stroke-linejoin=\"round\" paint-order=\"stroke\">");
}

static void put_text(struct picture *to, double x, double y, uint32_t size, const char *fill, const char *anchor, int bold, const char *words) {
    open_text(to, x, y, size, fill, anchor, bold), put(to, words), put(to, "</text>\n");
}

// The caller's words, without markup, a hyphen as a minus; at most so many letters of them, the rest cut off behind a word.
static void put_words(struct picture *to, const uint8_t *words, uint32_t room, uint32_t most) {
    uint32_t letters = 0, end = 0, cut = 0;
    for (; end < room && words[end]; end++) letters += (words[end] & 0xc0) != 0x80;
    if (letters > most)
        for (uint32_t at = letters = 0; at < end; at++) {
            letters += (words[at] & 0xc0) != 0x80;
            if (letters >= most) break;
            if (words[at] == ' ') cut = at;
        }
    for (uint32_t at = 0; at < (cut ? cut : end); at++) {
        char one[2] = {(char)words[at], 0};
        put(to, words[at] == '&' ? "&amp;" : words[at] == '<' ? "&lt;" : words[at] == '>' ? "&gt;" : words[at] == '-' ? MINUS : one);
    }
    if (cut) put(to, " \xe2\x80\xa6");
}

// ---- Where things lie in the picture ----

static int in_set(const uint64_t *set, uint32_t at) { return (int)(set[at / 64] >> (at % 64) & 1); }

// The channels' lines and the nodes in pixels of the picture, with its margins, and its size.
static void find_lines(struct picture *to) {
    const struct drawing_places *places = to->places;
    uint32_t count = 0, nodes = to->sheet->nodes, channels = to->sheet->channels;
    double left = 1e9, right = -1e9, top = 1e9, bottom = -1e9;
    for (uint32_t channel = 0; channel < channels; channel++) {
        uint32_t points = drawing_line(to->sheet, places, channel, to->line_x, to->line_y);
        to->start[channel] = count;
        for (uint32_t i = 0; i < points; i++) to->x[count] = to->line_x[i] / 100.0, to->y[count++] = to->line_y[i] / 100.0;
    }
    to->start[channels] = count;
    for (uint32_t i = 0; i < count; i++) {
        left = to->x[i] < left ? to->x[i] : left, right = to->x[i] > right ? to->x[i] : right;
        top = to->y[i] < top ? to->y[i] : top, bottom = to->y[i] > bottom ? to->y[i] : bottom;
    }
    double wide = right - left + 2 * ASIDE, across = wide < NARROWEST ? NARROWEST : wide;
    to->width = (uint32_t)(across + 0.5), to->height = (uint32_t)(bottom - top + ABOVE + BELOW + 0.5);
    for (uint32_t i = 0; i < count; i++) to->x[i] += (across - wide) / 2 + ASIDE - left, to->y[i] += ABOVE - top;
    for (uint32_t node = 0; node < nodes; node++) {
        to->node_x[node] = places->x[node] / 100.0 + (across - wide) / 2 + ASIDE - left, to->node_y[node] = places->y[node] / 100.0 + ABOVE - top;
    }
}

static void find_boxes(struct picture *to) {
    for (uint32_t channel = 0; channel < to->sheet->channels; channel++) {
        struct box box = {1e9, 1e9, -1e9, -1e9};
        for (uint32_t i = to->start[channel]; i < to->start[channel + 1]; i++) {
            box.left = to->x[i] < box.left ? to->x[i] : box.left, box.right = to->x[i] > box.right ? to->x[i] : box.right;
            box.top = to->y[i] < box.top ? to->y[i] : box.top, box.bottom = to->y[i] > box.bottom ? to->y[i] : box.bottom;
        }
        to->channel[channel] = box;
    }
}

static double length_between(const struct picture *to, uint32_t i, uint32_t k) {
    double x = to->x[k] - to->x[i], y = to->y[k] - to->y[i];
    return drawing_root(x * x + y * y);
}

static double line_length(const struct picture *to, uint32_t channel) {
    double sum = 0;
    for (uint32_t i = to->start[channel]; i + 1 < to->start[channel + 1]; i++) sum += length_between(to, i, i + 1);
    return sum;
}

struct spot {
    double x, y, way_x, way_y; // a place and the direction there
    uint32_t behind; // the last point of the line before it
};

// The place so far along a channel.
static struct spot along(const struct picture *to, uint32_t channel, double distance) {
    struct spot spot = {0, 0, 1, 0, to->start[channel]};
    for (uint32_t i = to->start[channel]; i + 1 < to->start[channel + 1]; i++) {
        double length = length_between(to, i, i + 1), part = length > 0 ? distance / length : 0;
        int last = i + 2 == to->start[channel + 1];
        if (distance > length && !last) {
            distance -= length;
            continue;
        }
        spot.x = to->x[i] + (to->x[i + 1] - to->x[i]) * part, spot.y = to->y[i] + (to->y[i + 1] - to->y[i]) * part, spot.behind = i;
        if (length > 0) spot.way_x = (to->x[i + 1] - to->x[i]) / length, spot.way_y = (to->y[i + 1] - to->y[i]) / length;
        break;
    }
    return spot;
}

// ---- Channels ----

struct look {
    const char *colour;
    double width;
    int way; // which way the water runs, or which way leads out of the set: 1 from tail to head, -1 back, 0 neither
    int counted; // whether a number counts on it, and which
    int32_t number;
};

// The dart of a channel that leads out of the set, or -1.
static int32_t leaving(const struct picture *to, uint32_t channel) {
    for (uint32_t side = 0; side < 2 && to->shown->has_set; side++) {
        uint32_t dart = 2 * channel + side;
        if (in_set(to->shown->set, to->sheet->tails[dart]) && !in_set(to->shown->set, to->sheet->tails[dart ^ 1])) return (int32_t)dart;
    }
    return -1;
}

static struct look look_of(const struct picture *to, uint32_t channel) {
    struct look look = {GREY, 1.6, 0, 0, 0};
    int32_t most = to->sheet->limits[2 * channel], least = -to->sheet->limits[2 * channel + 1], out = leaving(to, channel);
    if (to->shown->has_settings) {
        int32_t flow = to->shown->settings[channel];
        double size = flow < 0 ? -(double)flow : flow;
        look.colour = flow == 0 ? GREY : flow == least || flow == most ? FULL : FLOW;
        look.width = 1.6 + 5 * size / (to->greatest > 0 ? to->greatest : 1), look.way = (flow > 0) - (flow < 0), look.counted = 1, look.number = flow;
    } else if (out >= 0) {
        look.colour = CUT, look.width = 3.5, look.way = out % 2 ? -1 : 1, look.counted = 1, look.number = to->sheet->limits[out];
    }
    if (to->shown->style == DRAWING_PAPER) look.colour = INK, look.width = 1.6;
    if (to->shown->has_wrong && in_set(to->shown->wrong_channels, channel)) look.colour = CUT;
    return look;
}

static void put_path(struct picture *to, uint32_t first, uint32_t last, const double *end, const char *colour, double width) {
    put(to, "<path d=\"M"), put_pair(to, to->x[first], " ", to->y[first]);
    for (uint32_t i = first + 1; i <= last; i++) put(to, i == first + 1 ? "L" : " "), put_pair(to, to->x[i], " ", to->y[i]);
    if (end) put(to, last == first ? "L" : " "), put_pair(to, end[0], " ", end[1]);
    put(to, "\" fill=\"none\" stroke=\""), put(to, colour), put(to, "\" stroke-width=\""), put_pixels(to, width);
    put(to, "\" stroke-linecap=\"round\" stroke-linejoin=\"round\"/>\n");
}

// A channel up to the foot of its arrowhead, and that. A filled one shows which way the water runs, so for a setting below zero it points from the channel's
// head to its tail; or which way leads out of the set. A hollow one points from tail to head, so that you can tell in which direction the limits count.
static void put_channel(struct picture *to, uint32_t channel) {
    struct look look = look_of(to, channel);
    uint32_t first = to->start[channel], last = to->start[channel + 1] - 1;
    double all = line_length(to, channel), size = 9 + 0.8 * look.width, half = 3.5 + 0.8 * look.width, tip = RADIUS + 1;
    if (2 * tip + size > all) tip = (all - size) / 2; // the circles of its ends leave no room
    if (tip < 0) tip = 0, size = all;
    struct spot foot = along(to, channel, look.way < 0 ? tip + size : all - tip - size), point = along(to, channel, look.way < 0 ? tip : all - tip);
    double dx = (point.x - foot.x) / size * half, dy = (point.y - foot.y) / size * half, end[2] = {foot.x, foot.y};
    if (look.way < 0) {
        put(to, "<path d=\"M"), put_pair(to, foot.x, " ", foot.y);
        for (uint32_t i = foot.behind + 1; i <= last; i++) put(to, i == foot.behind + 1 ? "L" : " "), put_pair(to, to->x[i], " ", to->y[i]);
        put(to, "\" fill=\"none\" stroke=\""), put(to, look.colour), put(to, "\" stroke-width=\""), put_pixels(to, look.width);
        put(to, "\" stroke-linecap=\"round\" stroke-linejoin=\"round\"/>\n");
    } else {
        put_path(to, first, foot.behind, end, look.colour, look.width);
    }
    put(to, "<polygon points=\""), put_pair(to, point.x, ",", point.y), put(to, " "), put_pair(to, foot.x - dy, ",", foot.y + dx), put(to, " ");
    put_pair(to, foot.x + dy, ",", foot.y - dx), put(to, look.way ? "\" fill=\"" : "\" fill=\"#fff\" stroke=\""), put(to, look.colour);
    put(to, look.way ? "\"/>\n" : "\" stroke-width=\"1.2\" stroke-linejoin=\"round\"/>\n");
}

// ---- Labels ----

static void keep_box(struct picture *to, struct box box) {
    if (to->boxes < BOXES) to->box[to->boxes++] = box;
}

static struct box box_at(double x, double y, double width, double height) {
    struct box box = {x - width / 2, y - height / 2, x + width / 2, y + height / 2};
    return box;
}

// How much of a box is taken.
static double taken(const struct picture *to, struct box box) {
    double sum = 0;
    for (uint32_t i = 0; i < to->boxes; i++) {
        const struct box *other = &to->box[i];
        double wide = (box.right < other->right ? box.right : other->right) - (box.left > other->left ? box.left : other->left);
        double high = (box.bottom < other->bottom ? box.bottom : other->bottom) - (box.top > other->top ? box.top : other->top);
        if (wide > 0 && high > 0) sum += wide * high;
    }
    return sum;
}

// Whether a line comes into a box: not all of it is on one side, and not all corners are on one side of it.
static int comes_into(const struct box *box, double ax, double ay, double bx, double by) {
    if ((ax < box->left && bx < box->left) || (ax > box->right && bx > box->right) || (ay < box->top && by < box->top) ||
        (ay > box->bottom && by > box->bottom))
        return 0;
    int above = 0;
    for (int i = 0; i < 4; i++) {
        double x = i % 2 ? box->right : box->left, y = i / 2 ? box->bottom : box->top;
        above += (bx - ax) * (y - ay) - (by - ay) * (x - ax) > 0;
    }
    return above > 0 && above < 4;
}

// How many channels come into a box, but for one. Not looked at in a drawing of very many bends.
static uint32_t crossed(const struct picture *to, struct box box, uint32_t but) {
    uint32_t count = 0;
    if (to->start[to->sheet->channels] > 8 * DRAWING_CHANNELS) return 0;
    for (uint32_t channel = 0; channel < to->sheet->channels; channel++) {
        const struct box *all = &to->channel[channel];
        int comes = 0;
        if (channel == but || all->left > box.right || all->right < box.left || all->top > box.bottom || all->bottom < box.top) continue;
        for (uint32_t i = to->start[channel]; i + 1 < to->start[channel + 1] && !comes; i++)
            comes = comes_into(&box, to->x[i], to->y[i], to->x[i + 1], to->y[i + 1]);
        count += (uint32_t)comes;
    }
    return count;
}

// The letters of a channel's label: the number that counts, and the allowed settings.
static uint32_t label_length(const struct picture *to, uint32_t channel, const struct look *look) {
    uint32_t span = length_of(to->sheet->limits[2 * channel]) + length_of(-(int64_t)to->sheet->limits[2 * channel + 1]) + 2;
    if (!look->counted) return span;
    return span + length_of(look->number) + (to->shown->has_settings ? 4 : 3 + (look->number >= 0));
}

static void put_label(struct picture *to, uint32_t channel, const struct look *look, double x, double y) {
    int settings = to->shown->has_settings;
    open_text(to, x, y + 4, 11, "#555", "middle", 0);
    if (look->counted) {
        put(to, "<tspan fill=\""), put(to, look->colour[1] == '9' ? INK : look->colour), put(to, "\" font-weight=\"bold\">");
        put(to, settings || look->number < 0 ? "" : "+"), put_number(to, look->number), put(to, "</tspan>");
        put(to, settings ? SPACE "of" SPACE : SPACE "(");
    }
    put_number(to, -(int64_t)to->sheet->limits[2 * channel + 1]), put(to, ".."), put_number(to, to->sheet->limits[2 * channel]);
    put(to, look->counted && !settings ? ")</text>\n" : "</text>\n");
}

// A channel's number on the channel.
static void put_badge(struct picture *to, uint32_t channel, double x, double y, double width) {
    int wrong = to->shown->has_wrong && in_set(to->shown->wrong_channels, channel);
    put(to, "<rect x=\""), put_pair(to, x - width / 2, "\" y=\"", y - 6.5), put(to, "\" width=\""), put_pixels(to, width);
    put(to, "\" height=\"13\" rx=\"4\" fill=\""), put(to, wrong ? CUT : "#fff"), put(to, "\" stroke=\""), put(to, wrong ? CUT : "#777"),
        put(to, "\" stroke-width=\"0.8\"/>");
    put(to, "<text x=\""), put_pair(to, x, "\" y=\"", y + 3.6), put(to, "\" font-size=\"10\" fill=\""), put(to, wrong ? "#fff" : "#333");
    put(to, "\" text-anchor=\"middle\" class=\"channel\">"), put_number(to, channel), put(to, "</text>\n");
}

// The number on the channel and the label beside it, near its middle where that is free: else further on, or on the other side, where least is taken.
static void put_names(struct picture *to, uint32_t channel) {
    static const double parts[] = {0.5, 0.42, 0.58, 0.34, 0.66, 0.27, 0.73, 0.2, 0.8};
    struct look look = look_of(to, channel);
    double all = line_length(to, channel), wide = 5.9 * label_length(to, channel, &look) + 2, badge = 5.6 * length_of(channel) + 7, best = 1e18, x = 0, y = 0;
    struct spot spot = along(to, channel, all / 2);
    struct box boxes[2] = {{0, 0, 0, 0}, {0, 0, 0, 0}};
    for (uint32_t i = 0; i < 2 * (sizeof parts / sizeof *parts) && best > 0; i++) {
        struct spot at = along(to, channel, all * parts[i / 2]);
        double dx = at.way_y, dy = -at.way_x; // beside it
        if (dy > 0.2 || (dy > -0.2 && dx < 0)) dx = -dx, dy = -dy; // above it, or right of it where it runs up or down
        if (i % 2) dx = -dx, dy = -dy;
        double away = (dx < 0 ? -dx : dx) * (wide + badge) / 2 + (dy < 0 ? -dy : dy) * 13 + look.width / 2 + 1;
        struct box number = box_at(at.x, at.y, badge, 13), label = box_at(at.x + dx * away, at.y + dy * away, wide, 13);
        double cost = 2 * taken(to, number) + taken(to, label);
        if (cost < best) cost += 40 * crossed(to, label, DRAWING_CHANNELS) + 80 * crossed(to, number, channel);
        if (cost >= best) continue;
        best = cost, spot = at, x = at.x + dx * away, y = at.y + dy * away, boxes[0] = number, boxes[1] = label;
    }
    keep_box(to, boxes[0]), keep_box(to, boxes[1]);
    put_label(to, channel, &look, x, y);
    put_badge(to, channel, spot.x, spot.y, badge);
}

// ---- Nodes ----

static void put_node(struct picture *to, uint32_t node) {
    const struct drawing_shown *shown = to->shown;
    int inside = shown->has_set && in_set(shown->set, node), wrong = shown->has_wrong && in_set(shown->wrong_nodes, node),
        subtotal = inside && shown->has_subtotals;
    int end = (int32_t)node == shown->headgate || (int32_t)node == shown->outfall, paper = shown->style == DRAWING_PAPER;
    double x = to->node_x[node], y = to->node_y[node];
    if (wrong)
        put(to, "<circle cx=\""), put_pair(to, x, "\" cy=\"", y),
            put(to, "\" r=\"20\" fill=\"none\" stroke=\"" CUT "\" stroke-width=\"3\" stroke-dasharray=\"5 3\"/>\n");
    put(to, "<circle cx=\""), put_pair(to, x, "\" cy=\"", y), put(to, "\" r=\"14\" fill=\""), put(to, inside ? INSIDE : "#fff"), put(to, "\" stroke=\"");
    put(to, !end || paper ? INK : (int32_t)node == shown->headgate ? SOURCE : SINK), put(to, end ? "\" stroke-width=\"4\"/>" : "\" stroke-width=\"1.4\"/>");
    put(to, "<text x=\""), put_pair(to, x, "\" y=\"", y + (subtotal ? 0.5 : 4.5)), put(to, "\" font-size=\"12\" text-anchor=\"middle\">");
    put_number(to, node), put(to, "</text>\n");
    if (!subtotal) return;
    put(to, "<text x=\""), put_pair(to, x, "\" y=\"", y + 10), put(to, "\" font-size=\"9\" font-weight=\"bold\" fill=\"" CUT "\" text-anchor=\"middle\">");
    put_number(to, shown->subtotals[node]), put(to, "</text>\n");
}

// How far the channels of a node lead in a direction: the greatest cosine.
static double leads(const struct picture *to, uint32_t node, double dx, double dy) {
    double most = -2;
    for (uint32_t dart = 0; dart < 2u * to->sheet->channels; dart++) {
        uint32_t channel = dart / 2, at = dart % 2 ? to->start[channel + 1] - 1 : to->start[channel], next = dart % 2 ? at - 1 : at + 1;
        double length = length_between(to, at, next);
        if (to->sheet->tails[dart] != node || !(length > 0)) continue;
        double cosine = ((to->x[next] - to->x[at]) * dx + (to->y[next] - to->y[at]) * dy) / length;
        most = cosine > most ? cosine : most;
    }
    return most;
}

// The name of a node: above, below, left or right of it, where its channels are farthest.
static void put_name(struct picture *to, uint32_t node, const char *words, const char *colour) {
    static const double ways[4][2] = {{0, -1}, {0, 1}, {-1, 0}, {1, 0}};
    static const char *anchors[4] = {"middle", "middle", "end", "start"};
    uint32_t best = 0;
    for (uint32_t i = 1; i < 4; i++)
        if (leads(to, node, ways[i][0], ways[i][1]) < leads(to, node, ways[best][0], ways[best][1]) - 0.001) best = i;
    double x = to->node_x[node] + ways[best][0] * (RADIUS + 6), y = to->node_y[node] + 4 + ways[best][1] * (RADIUS + 12), wide = 58;
    keep_box(to, box_at(x + ways[best][0] * wide / 2, y - 4, wide, 14));
    put_text(to, x, y, 12, to->shown->style == DRAWING_PAPER ? INK : colour, anchors[best], 1, words);
}

// ---- Faces ----

// The corners of a face, as a path.
static void put_face(struct picture *to, uint32_t start) {
    uint32_t dart = start;
    put(to, "M");
    do {
        uint32_t first = to->start[dart / 2], count = to->start[dart / 2 + 1] - first;
        for (uint32_t i = 0; i + 1 < count; i++) {
            uint32_t at = dart % 2 ? first + count - 1 - i : first + i;
            put_pair(to, to->x[at], " ", to->y[at]), put(to, " ");
        }
        dart = face_step(to->sheet, dart);
    } while (dart != start);
    put(to, "Z");
}

static int lies_outside(const struct picture *to, uint32_t face) {
    for (uint32_t part = 0; part < to->map.parts; part++)
        if (to->map.face[to->map.outer[part]] == face) return 1;
    return 0;
}

static int face_inside(const struct picture *to, uint32_t face) {
    uint32_t start = to->map.lowest[face], dart = start;
    do {
        if (!in_set(to->shown->set, to->sheet->tails[dart])) return 0;
        dart = face_step(to->sheet, dart);
    } while (dart != start);
    return 1;
}

// A band through the set: the inner faces with all nodes in it, the channels between its nodes, and the nodes.
static void put_band(struct picture *to) {
    for (uint32_t face = 0; face < to->map.faces; face++)
        if (!lies_outside(to, face) && face_inside(to, face)) put(to, "<path d=\""), put_face(to, to->map.lowest[face]), put(to, "\" fill=\"" BAND "\"/>\n");
    for (uint32_t channel = 0; channel < to->sheet->channels; channel++)
        if (in_set(to->shown->set, to->sheet->tails[2 * channel]) && in_set(to->shown->set, to->sheet->tails[2 * channel + 1]))
            put_path(to, to->start[channel], to->start[channel + 1] - 1, 0, BAND, 4 * RADIUS);
    for (uint32_t node = 0; node < to->sheet->nodes; node++)
        if (in_set(to->shown->set, node)) {
            put(to, "<circle cx=\""), put_pair(to, to->node_x[node], "\" cy=\"", to->node_y[node]), put(to, "\" r=\"28\" fill=\"" BAND "\"/>\n");
        }
}

// The face of the outer dart, where the sheet names one: all that lies outside the channels round it is tinted. Not in a drawing of several parts, where each
// has its own outside.
static void put_outer(struct picture *to) {
    if (to->sheet->outer < 0 || to->map.parts != 1) return;
    put(to, "<rect y=\"64\" width=\""), put_number(to, to->width), put(to, "\" height=\""), put_number(to, (int64_t)to->height - 124),
        put(to, "\" fill=\"" OUTER "\"/>\n");
    put(to, "<path d=\""), put_face(to, (uint32_t)to->sheet->outer), put(to, "\" fill=\"#fff\"/>\n");
    open_text(to, to->width - 24, 82, 11, "#555", "end", 0), put(to, "outer face, left of dart "), put_number(to, to->sheet->outer),
        put(to, ": level 0</text>\n");
}

// One side of a face against a spot: whether a ray to the right crosses it, and the square of its distance.
static int against(double x, double y, double ax, double ay, double bx, double by, double *least) {
    double dx = bx - ax, dy = by - ay, length = dx * dx + dy * dy, t = length > 0 ? ((x - ax) * dx + (y - ay) * dy) / length : 0;
    t = t < 0 ? 0 : t > 1 ? 1 : t;
    double far_x = x - ax - t * dx, far_y = y - ay - t * dy, far = far_x * far_x + far_y * far_y;
    if (far < *least) *least = far;
    return (ay > y) != (by > y) && x < ax + (y - ay) / dy * dx;
}

// The square of a spot's distance from the rim of a face, or -1 if it is not in it.
static double depth(const struct picture *to, uint32_t start, double x, double y) {
    uint32_t dart = start;
    int inside = 0;
    double least = 1e18;
    do {
        for (uint32_t i = to->start[dart / 2]; i + 1 < to->start[dart / 2 + 1]; i++)
            inside ^= against(x, y, to->x[i], to->y[i], to->x[i + 1], to->y[i + 1], &least);
        dart = face_step(to->sheet, dart);
    } while (dart != start);
    return inside ? least : -1;
}

// The spot of a face that is farthest from its rim, of those on a grid.
static void middle_of(const struct picture *to, uint32_t start, double *x, double *y) {
    double left = 1e9, right = -1e9, top = 1e9, bottom = -1e9, best = -2;
    uint32_t dart = start;
    do {
        for (uint32_t i = to->start[dart / 2]; i < to->start[dart / 2 + 1]; i++) {
            left = to->x[i] < left ? to->x[i] : left, right = to->x[i] > right ? to->x[i] : right;
            top = to->y[i] < top ? to->y[i] : top, bottom = to->y[i] > bottom ? to->y[i] : bottom;
        }
        dart = face_step(to->sheet, dart);
    } while (dart != start);
    for (uint32_t i = 0; i < 21 * 21; i++) {
        double at_x = left + (right - left) * (i % 21 + 1) / 22, at_y = top + (bottom - top) * (i / 21 + 1) / 22, deep = depth(to, start, at_x, at_y);
        if (deep > best) best = deep, *x = at_x, *y = at_y;
    }
}

// The level of each face at its middle, and of those that lie outside at the right above.
static void put_levels(struct picture *to) {
    uint32_t above = 82;
    for (uint32_t face = 0; face < to->map.faces; face++) {
        double x = 0, y = 0;
        if (lies_outside(to, face)) {
            if (above > to->height - BELOW) continue;
            open_text(to, to->width - 24, above, 12, LEVEL, "end", 1), put(to, "outside, left of dart "), put_number(to, to->map.lowest[face]),
                put(to, ": level ");
            keep_box(to, box_at(to->width - 24 - 105, above - 4, 210, 16));
            above += 16;
        } else {
            middle_of(to, to->map.lowest[face], &x, &y);
            open_text(to, x, y + 4, 14, LEVEL, "middle", 1);
            keep_box(to, box_at(x, y, 9 * length_of(to->shown->levels[face]), 14));
        }
        put_number(to, to->shown->levels[face]), put(to, "</text>\n");
    }
}

// ---- Above and below ----

static double put_item(struct picture *to, double x, const char *colour, double width, const char *meaning) {
    uint32_t letters = 0;
    while (meaning[letters]) letters++;
    put(to, "<path d=\"M"), put_pixels(to, x), put(to, " "), put_number(to, (int64_t)to->height - 40), put(to, "h22\" stroke=\""), put(to, colour);
    put(to, "\" stroke-width=\""), put_pixels(to, width), put(to, "\"/>"), put_text(to, x + 28, to->height - 36, 11, INK, "start", 0, meaning);
    return x + 48 + 5.6 * letters;
}

// What the marks mean, in two lines at the foot.
static void put_legend(struct picture *to) {
    const struct drawing_shown *shown = to->shown;
    double x = 24;
    const char *set = shown->has_subtotals ? "the set, each node with its subtotal" : "the set";
    if (shown->has_settings) {
        x = put_item(to, x, FLOW, 5, "carries water"), x = put_item(to, x, FULL, 5, "carries it at a limit"), x = put_item(to, x, GREY, 1.6, "carries none");
        if (shown->has_set) x = put_item(to, x, BAND, 14, set);
    } else {
        if (shown->has_set) x = put_item(to, x, BAND, 14, set), x = put_item(to, x, CUT, 3.5, "leaves or enters it, with the most that it lets out");
        x = put_item(to, x, GREY, 1.6, shown->has_set ? "other channels" : "a channel");
    }
    if (shown->has_levels) x = put_item(to, x, LEVEL, 5, "the level of a face");
    if (shown->has_wrong) x = put_item(to, x, CUT, 5, "outside its limits (17)"), x = put_item(to, x, CUT, 1.6, "a ring: off balance (18)");
    put_text(to, 24, to->height - 16, 11, INK, "start", 0,
             shown->has_settings
                 ? "in a box: the channel\xe2\x80\x99s number; arrowhead: the way the water runs (hollow: none runs, from tail to head); \xe2\x80\x9c" MINUS
                   "3 of " MINUS "8..4\xe2\x80\x9d: 3 from head to tail, allowed " MINUS "8 to 4"
             : shown->has_set ? "in a box: the channel\xe2\x80\x99s number; arrowhead: out of the set (hollow: from tail to head); \xe2\x80\x9c" MINUS
                                "3..8\xe2\x80\x9d: allowed settings, at most 8 from tail to head and 3 back"
                              : "in a box: the channel\xe2\x80\x99s number; \xe2\x80\x9c" MINUS
                                "3..8\xe2\x80\x9d: allowed settings, at most 8 from tail to head, as the arrowhead points, "
                                "and 3 back; \xe2\x80\x9c"
                                "2..8\xe2\x80\x9d: at least 2");
}

// An exam page has what the marks mean on one line, and ruled lines.
static void put_lines(struct picture *to) {
    uint32_t lines = to->shown->lines < 64 ? to->shown->lines : 64, foot = to->height - BELOW + 48 - lines * RULED;
    put_text(to, 24, foot, 11, INK, "start", 0,
             "in a box: the channel\xe2\x80\x99s number; beside it its least and its greatest setting, from tail to head as the arrowhead points");
    for (uint32_t i = 0; i < lines; i++) {
        put(to, "<path d=\"M24 "), put_number(to, foot + 30 + i * RULED), put(to, "H"), put_number(to, to->width - 24),
            put(to, "\" stroke=\"#888\" stroke-width=\"0.8\"/>\n");
    }
}

static void put_head(struct picture *to) {
    put(to, "<svg xmlns=\"http://www.w3.org/2000/svg\" width=\""), put_number(to, to->width), put(to, "\" height=\""), put_number(to, to->height);
    put(to, "\" viewBox=\"0 0 "), put_number(to, to->width), put(to, " "), put_number(to, to->height);
    put(to, "\" font-family=\"Helvetica, Arial, sans-serif\">\n<rect width=\""), put_number(to, to->width), put(to, "\" height=\"");
    put_number(to, to->height), put(to, "\" fill=\"#fff\"/>\n");
    open_text(to, 24, 32, 20, INK, "start", 1), put_words(to, to->shown->title, sizeof to->shown->title, (to->width - 48) / 10), put(to, "</text>\n");
    open_text(to, 24, 52, 13, INK, "start", 0), put_words(to, to->shown->caption, sizeof to->shown->caption, (to->width - 48) / 7), put(to, "</text>\n");
}

static void put_drawing(struct picture *to) {
    uint32_t nodes = to->sheet->nodes, channels = to->sheet->channels;
    if (to->shown->has_set) put_band(to);
    for (uint32_t channel = 0; channel < channels; channel++) put_channel(to, channel);
    for (uint32_t node = 0; node < nodes; node++) put_node(to, node), keep_box(to, box_at(to->node_x[node], to->node_y[node], 2 * RADIUS, 2 * RADIUS));
    if (to->shown->headgate >= 0) put_name(to, (uint32_t)to->shown->headgate, "headgate", SOURCE);
    if (to->shown->outfall >= 0) put_name(to, (uint32_t)to->shown->outfall, "outfall", SINK);
    if (to->shown->has_levels) put_levels(to);
    for (uint32_t channel = 0; channel < channels; channel++) put_names(to, channel);
}

uint32_t drawing_svg(const struct drawing_sheet *sheet, const struct drawing_places *places, const struct drawing_shown *shown, void *work, uint8_t *text,
                     uint32_t length, uint32_t size[2]) {
    struct picture *to = work;
    to->sheet = sheet, to->places = places, to->shown = shown, to->text = text, to->length = length, to->used = to->boxes = 0;
    if (drawing_map(sheet, &to->map) != DRAWING_DONE || !drawing_in_range(sheet, places)) return 0;
    if (shown->headgate >= (int32_t)sheet->nodes || shown->outfall >= (int32_t)sheet->nodes) return 0;
    find_lines(to), find_boxes(to);
    if (shown->style == DRAWING_PAPER) to->height += RULED * (shown->lines < 64 ? shown->lines : 64);
    to->greatest = 0;
    for (uint32_t channel = 0; channel < sheet->channels && shown->has_settings; channel++) {
        int32_t flow = shown->settings[channel] < 0 ? -shown->settings[channel] : shown->settings[channel];
        to->greatest = flow > to->greatest ? flow : to->greatest;
    }
    put_head(to);
    if (shown->style != DRAWING_PAPER) put_outer(to);
    put_drawing(to);
    if (shown->style == DRAWING_PAPER)
        put_lines(to);
    else
        put_legend(to);
    put(to, "</svg>\n");
    size[0] = to->width, size[1] = to->height;
    return to->used;
}
