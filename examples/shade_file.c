/* Reads a file with one square, cuts it into triangles, and prints them with the normal at each vertex. */
#include "aljumeste.h"

#include <inttypes.h>
#include <stdio.h>

/* A square with a side of 4. Numbers are big-endian; 0x40800000 is 4. */
static const uint8_t file[] = {
    1, 0,          /* version, kind: cubes */
    0, 0, 0, 4,    /* vertices: x, y, z, w, flags, tag, k */
    0x00, 0x00, 0, 0, 0x00, 0x00, 0, 0, 0, 0, 0, 0, 0, 0, 0, 0, 0, 0, 0, 0, 7, 0, 0, 0, 2,
    0x40, 0x80, 0, 0, 0x00, 0x00, 0, 0, 0, 0, 0, 0, 0, 0, 0, 0, 0, 0, 0, 0, 7, 0, 0, 0, 2,
    0x00, 0x00, 0, 0, 0x40, 0x80, 0, 0, 0, 0, 0, 0, 0, 0, 0, 0, 0, 0, 0, 0, 7, 0, 0, 0, 2,
    0x40, 0x80, 0, 0, 0x40, 0x80, 0, 0, 0, 0, 0, 0, 0, 0, 0, 0, 0, 0, 0, 0, 7, 0, 0, 0, 2,
    0, 0, 0, 0,    /* points */
    0, 0, 0, 0,    /* lines */
    0, 0, 0, 1,    /* areas: corners, parity */
    0, 0, 0, 0, 0, 0, 0, 1, 0, 0, 0, 2, 0, 0, 0, 3, 0,
    0, 0, 0, 0,    /* volumes */
    0, 0, 0, 0,    /* curves */
};

/* A cell at least of each list. */
struct bench {
    float positions[4 * 4];
    uint32_t marks[3 * 4];
    uint32_t points[1];
    uint32_t lines[3];
    uint32_t areas[5];
    uint32_t volumes[9];
    uint32_t curves[2];
    uint32_t steps[2];
};

#define WORDS(list) (list), sizeof(list) / sizeof(*(list))
#define BENCH(bench) \
    WORDS((bench).positions), WORDS((bench).marks), WORDS((bench).points), WORDS((bench).lines), \
    WORDS((bench).areas), WORDS((bench).volumes), WORDS((bench).curves), WORDS((bench).steps)

static struct bench mesh, other;
static uint32_t triangles[4 * 2], tetrahedra[5];
static float normals[3 * 4];

static int refused(uint8_t number) {
    printf("refused %u\n", number);
    return 1;
}

int main(void) {
    size_t answer[8], sizes[7];
    uint8_t number = aljumeste_read(WORDS(file), BENCH(mesh), BENCH(other), answer);
    if (number != ALJUMESTE_FINISHED) return refused(number);
    if (answer[0] != ALJUMESTE_CUBES) return refused(ALJUMESTE_KIND);

    number = aljumeste_triangulate(BENCH(mesh), answer + 1, WORDS(triangles), WORDS(tetrahedra), sizes);
    if (number != ALJUMESTE_FINISHED) return refused(number);
    for (size_t t = 0; t < sizes[ALJUMESTE_AREAS]; t++) {
        const uint32_t *row = triangles + 4 * t;
        printf("a %" PRIu32 " %" PRIu32 " %" PRIu32 " %c\n", row[0], row[1], row[2], row[3] == 0 ? 'e' : 'o');
    }

    /* The mesh of simplices: the same lists, but for areas and volumes. */
    number = aljumeste_compute_normals_3d(
        WORDS(mesh.positions), WORDS(mesh.marks), WORDS(mesh.points), WORDS(mesh.lines),
        WORDS(triangles), WORDS(tetrahedra), WORDS(mesh.curves), WORDS(mesh.steps), sizes, WORDS(normals));
    if (number != ALJUMESTE_FINISHED) return refused(number);
    for (size_t v = 0; v < sizes[ALJUMESTE_VERTICES]; v++) {
        const float *n = normals + 3 * v;
        printf("n %zu %g %g %g\n", v, (double)n[0], (double)n[1], (double)n[2]);
    }
    return 0;
}
