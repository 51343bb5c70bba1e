/* Refines one cube by one pass, and prints what is left as document 01 lists it: `passes`, then vertices, points, lines, areas, volumes
 * and curves, a line each. */
#include "aljumeste.h"

#include <inttypes.h>
#include <stdio.h>
#include <string.h>

/* Cells for one pass. The midpoints are those of 12 edges, 6 faces and the middle; the curve's own are two of them. */
enum { MIDPOINTS = 19, VERTICES = 8 + MIDPOINTS, POINTS = 1, LINES = 1, AREAS = 1, VOLUMES = 8, CURVES = 1, STEPS = 5 };

struct bench {
    float positions[4 * VERTICES];
    uint32_t marks[3 * VERTICES];
    uint32_t points[POINTS];
    uint32_t lines[3 * LINES];
    uint32_t areas[5 * AREAS];
    uint32_t volumes[9 * VOLUMES];
    uint32_t curves[2 * CURVES];
    uint32_t steps[2 * STEPS];
};

#define WORDS(list) (list), sizeof(list) / sizeof(*(list))

/* A cube with a side of 8 from the origin, its corner 0 as a point, and a curve along two of its edges. No axis is flagged. */
static const struct bench cube = {
    .positions = {0, 0, 0, 0, 8, 0, 0, 0, 0, 8, 0, 0, 8, 8, 0, 0, 0, 0, 8, 0, 8, 0, 8, 0, 0, 8, 8, 0, 8, 8, 8, 0},
    .points = {0},
    .volumes = {0, 1, 2, 3, 4, 5, 6, 7, 0},
    .curves = {7, 3},
    .steps = {0, 0, 1, 0, 3, 0},
};
static const size_t sizes[7] = {8, 1, 0, 0, 1, 1, 3};

static struct bench first, second;
static uint32_t book[ALJUMESTE_BOOK_WORDS * MIDPOINTS], tallies[2 * VERTICES];
static float sums[4 * VERTICES];

static char letter(uint32_t parity) {
    return parity == 0 ? 'e' : 'o';
}

/* What is left of a list: so many words from its first on. */
struct words {
    const uint32_t *at;
    size_t count;
};

static struct words left_of(
    const uint32_t *one, size_t one_words, const uint32_t *other, size_t other_words, uint8_t passes, size_t words) {
    size_t place[2];
    aljumeste_left(one, one_words, other, other_words, passes, words, place);
    return (struct words){place[0] == 0 ? one : other, place[1]};
}

#define LEFT(list, row, size) left_of(WORDS(first.list), WORDS(second.list), passes, (row) * (size))

static void print_vertices(uint8_t passes, size_t count) {
    size_t place[2];
    aljumeste_left_positions(WORDS(first.positions), WORDS(second.positions), passes, 4 * count, place);
    const float *positions = place[0] == 0 ? first.positions : second.positions;
    for (size_t i = 0; i < place[1]; i += 4) {
        uint32_t bits[4];
        memcpy(bits, positions + i, sizeof bits);
        printf("v %zu", i / 4);
        for (size_t axis = 0; axis < 4; axis++) printf(" %08" PRIX32, bits[axis]);
        printf("\n");
    }
}

static void print_elements(char name, struct words rows, size_t corners) {
    for (size_t i = 0; i < rows.count; i += corners + 1) {
        printf("%c", name);
        for (size_t c = 0; c < corners; c++) printf(" %" PRIu32, rows.at[i + c]);
        printf(" %c\n", letter(rows.at[i + corners]));
    }
}

/* A curve's vertices, then the parities of its steps; the last vertex has none. */
static void print_curves(struct words curves, struct words steps) {
    const uint32_t *step = steps.at;
    for (size_t c = 0; c < curves.count; c += 2) {
        uint32_t length = curves.at[c + 1];
        printf("c");
        for (uint32_t i = 0; i < length; i++) printf(" %" PRIu32, step[2 * i]);
        for (uint32_t i = 0; i + 1 < length; i++) printf(" %c", letter(step[2 * i + 1]));
        printf("\n");
        step += 2 * (size_t)length;
    }
}

static void print_listing(uint8_t passes, const size_t *sizes_left) {
    print_vertices(passes, sizes_left[ALJUMESTE_VERTICES]);
    struct words points = LEFT(points, 1, sizes_left[ALJUMESTE_POINTS]);
    for (size_t p = 0; p < points.count; p++) printf("p %" PRIu32 "\n", points.at[p]);
    print_elements('l', LEFT(lines, 3, sizes_left[ALJUMESTE_LINES]), 2);
    print_elements('a', LEFT(areas, 5, sizes_left[ALJUMESTE_AREAS]), 4);
    print_elements('s', LEFT(volumes, 9, sizes_left[ALJUMESTE_VOLUMES]), 8);
    print_curves(LEFT(curves, 2, sizes_left[ALJUMESTE_CURVES]), LEFT(steps, 2, sizes_left[ALJUMESTE_CURVE_VERTICES]));
}

int main(void) {
    size_t answer[8];
    first = cube;
    uint8_t number = aljumeste_subdivide_cubes(
        WORDS(first.positions), WORDS(first.marks), WORDS(first.points), WORDS(first.lines),
        WORDS(first.areas), WORDS(first.volumes), WORDS(first.curves), WORDS(first.steps),
        WORDS(second.positions), WORDS(second.marks), WORDS(second.points), WORDS(second.lines),
        WORDS(second.areas), WORDS(second.volumes), WORDS(second.curves), WORDS(second.steps),
        WORDS(book), WORDS(sums), WORDS(tallies), sizes, 1, 0, answer);
    if (number != ALJUMESTE_FINISHED) {
        printf("refused %u after %zu\n", number, answer[0]);
        return 1;
    }
    printf("passes %zu\n", answer[0]);
    print_listing((uint8_t)answer[0], answer + 1);
    return 0;
}
