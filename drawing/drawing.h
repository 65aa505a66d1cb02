// Drawing a sheet: places from its turns, and a picture (SVG). One source for the examiner's page (WebAssembly) and for the command tools/unit (x86-64), so
// that both have the same layout and the same look: the places and the text are the same bytes on both machines. Nothing here is proved; tests/drawing tries
// it.
//
// Freestanding C: no function of a C library is called (but memcpy, memmove and memset, which a compiler may put in), and no memory is taken: you lend it. The
// structs have no pointers and only numbers of a fixed width, so they lie alike everywhere: tools/pictures.py reads them here for other languages.
//
// A sheet here is one that the unit accepts: call Read first (analyser_read), and give what it filled. On anything else the functions end all the same and say
// DRAWING_NOT_FLAT.
//
// How to use it, for a sheet without places:
//     fill struct drawing_sheet;   drawing_places(&sheet, &places, work);   fill struct drawing_shown;
//     drawing_svg(&sheet, &places, &shown, work, text, length, size)  gives the bytes of the text
// For a sheet with saved places: fill struct drawing_places by yourself; take it if drawing_follows says DRAWING_DONE, else call drawing_places.
#ifndef DRAWING_H
#define DRAWING_H

#include <stdint.h>

#define DRAWING_NODES 513
#define DRAWING_CHANNELS 512
#define DRAWING_DARTS 1024
#define DRAWING_FACES 1024 // at most: 512 parts of one node and one loop have two each
#define DRAWING_BENDS 8192 // of all channels of a sheet together
#define DRAWING_UNIT 100 // places are in hundredths of a pixel of the picture
#define DRAWING_MOST 100000000 // the largest place, either way: a million pixels
#define DRAWING_WORK (8 * 1024 * 1024) // bytes that you lend as `work`, aligned to 8; what they hold before does not matter, and after means nothing
#define DRAWING_TEXT (4 * 1024 * 1024) // no text is longer than this
#define DRAWING_NONE (-1) // for a dart or a node that is not named

// What a function says.
#define DRAWING_DONE 0
#define DRAWING_NOT_FLAT 1 // no sheet that the unit accepts: a count, an end or a turn is none, or the turns are not flat
#define DRAWING_NOT_THE_TURNS 2 // the places show other turns than the sheet has, or two darts leave a node in one direction
#define DRAWING_CROSSES 3 // two channels meet elsewhere than at a node that both have
#define DRAWING_TOO_FAR 4 // a place is beyond DRAWING_MOST, or there are more bends than DRAWING_BENDS

// What Read gives of a sheet.
struct drawing_sheet {
    uint16_t nodes, channels;
    int32_t outer; // a dart on the face that is to lie outside in its part, or DRAWING_NONE; in every other part the longest face lies outside
    uint16_t tails[DRAWING_DARTS]; // of each dart, two for each channel
    uint16_t turns[DRAWING_DARTS]; // the next dart clockwise with the same tail
    int32_t limits[DRAWING_DARTS]; // only read by drawing_svg
};

// Where a drawing lies: x to the right, y downwards. A channel is a line from its tail by its bends to its head. Without a bend it is straight. With bends it
// has a corner at each (`sharp`), or is a curve: quadratic pieces that have the bends as their control points and the middles between bends as their ends, so
// that it leaves each end towards the nearest bend, as on the examiner's page. A loop has two bends or more.
struct drawing_places {
    int32_t x[DRAWING_NODES], y[DRAWING_NODES];
    uint16_t first[DRAWING_CHANNELS + 1]; // the bends of channel e are first[e] to first[e + 1] - 1, from its tail to its head; first[0] is 0
    uint8_t sharp[DRAWING_CHANNELS]; // 1: corners at the bends
    uint8_t unused[6]; // 0
    int32_t bend_x[DRAWING_BENDS], bend_y[DRAWING_BENDS];
};

// Places from the turns alone, for every flat sheet: at each node the darts leave clockwise in the order of the turns, no two channels meet but at a node that
// both have, and the outer dart's face lies outside its part. Parts lie in rows beside one another. The least x and the least y are 0; there is no margin.
// DRAWING_DONE or DRAWING_NOT_FLAT; only in the first case is *places written, all of it.
uint32_t drawing_places(const struct drawing_sheet *sheet, struct drawing_places *places, void *work);

// Whether places show a sheet: at each node the darts leave clockwise in the order of the turns (DRAWING_NOT_THE_TURNS: *at is a node where they do not), and
// no channels cross (DRAWING_CROSSES: *at is one of them; curves are taken as many short straight lines). Turns are looked at first: places with a crossing and
// the right turns are a drawing that the unit takes, if not a good one.
uint32_t drawing_follows(const struct drawing_sheet *sheet, const struct drawing_places *places, void *work, uint32_t *at);

// What a picture shows beside the drawing. Every channel has its number and its limits in every picture.
#define DRAWING_KEY 0 // style: in colours, with a legend
#define DRAWING_PAPER 1 // style: an exam page: black and white, the drawing with numbers and limits, and ruled lines for the answers
struct drawing_shown {
    uint32_t style;
    uint32_t lines; // ruled lines below the drawing, at most 64
    int32_t headgate, outfall; // nodes, or DRAWING_NONE
    // 1 where what is named is shown, else 0 and the array is not read
    uint8_t has_settings, has_set, has_subtotals, has_levels, has_wrong;
    uint8_t unused[3]; // 0
    int32_t settings[DRAWING_CHANNELS]; // the flow of each channel from its tail to its head
    uint64_t set[9]; // node i is bit i % 64 of word i / 64; bits past the last node are passed over
    int32_t subtotals[DRAWING_NODES]; // by node; read for the nodes of the set
    int32_t levels[DRAWING_FACES]; // by face, faces numbered from 0 in order of their lowest dart
    uint64_t wrong_channels[8]; // marked as outside its limits (17), by bits as in a set
    uint64_t wrong_nodes[9]; // marked as off balance (18)
    uint8_t title[256], caption[2048]; // UTF-8 text that ends with a 0 byte; no markup. A caption that is too long for the picture ends behind a word
};

// The picture as an SVG document (UTF-8, no 0 byte at the end) and its size in whole pixels: size[0] wide, size[1] high. Returns the bytes of the text; where
// that is more than `length` nothing useful is written, so call again with as much. 0: *sheet is not flat or a place too far. Documents can be put below one
// another in a document of your own: a document begins with "<svg ", behind which a y may be put.
uint32_t drawing_svg(const struct drawing_sheet *sheet, const struct drawing_places *places, const struct drawing_shown *shown, void *work, uint8_t *text,
                     uint32_t length, uint32_t size[2]);

// As tools/pictures.py lays them out, for Rust, Python and JavaScript.
_Static_assert(sizeof(struct drawing_sheet) == 8200, "drawing_sheet");
_Static_assert(sizeof(struct drawing_places) == 71184, "drawing_places");
_Static_assert(sizeof(struct drawing_shown) == 10736, "drawing_shown");

#endif
