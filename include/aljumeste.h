/* Aljumeste: refined surfaces of cubes and simplices, their triangulation and their normals, for C.
 *
 * Link crates/aljumeste/out/libaljumeste.a, which `rt lib` in crates/aljumeste writes; it needs no runtime. Every function answers every input:
 * any words in lists of any lengths, any sizes. What a caller owes is C's own part:
 * - A list is a pointer and its length in words (for the file, in bytes). The pointer is good for that many, aligned, and not NULL
 *   even where the length is 0.
 * - Lists that a call writes, and its `answer`, overlap nothing else that is handed to that call.
 *
 * LISTS. A mesh is kept in eight lists of rows; entries are numbered from 0 and stand in the first rows. A list's lent cells are its
 * length divided by the words of a row, rounded down; vertices are in two lists, and have the smaller of the two numbers.
 *
 *   positions   4   x, y, z, w of a vertex; finite, from -1024 to 1024
 *   marks       3   the same vertex's flags (bit i set: smoothing leaves axis i), tag, k; tag and k are any words
 *   points      1   vertex number
 *   lines       3   two vertex numbers, parity
 *   areas       5   four vertex numbers, parity     (simplices 4: three, parity)
 *   volumes     9   eight vertex numbers, parity    (simplices 5: four, parity)
 *   curves      2   tag, number of vertices; the curves' vertices follow each other in steps
 *   steps       2   vertex number, parity of the step to the next vertex; beside a curve's last vertex the word is never read
 *
 * A vertex keeps its flags, tag and k. A midpoint has the flags that both ends have, and tag and k both of one end: of that with the smaller k,
 * compared as uint32_t, of the first on a tie. (The first end of a curve's odd step is the later vertex.)
 *
 * A parity is 0, even, or 1, odd. Corner c of a square or cube is at the far end of its axis i where bit i of c is set.
 *
 * Lists sit on two benches, the second's names beginning with other_, and each has as many words on both. A mesh is handed in on the
 * first. What is left stands on the first bench after an even number of passes, on the second after an odd one (aljumeste_left says
 * where). Refining is also lent:
 *
 *   book        6   a cell for each midpoint that is made (ALJUMESTE_BOOK_WORDS)
 *   sums        4   as many cells as the vertices have, no more and no fewer
 *   tallies     2   likewise
 *
 * Nothing in them need be set. Once a refinement has begun, they, the other bench and cells past a list's end are free.
 */
#ifndef ALJUMESTE_H
#define ALJUMESTE_H

#include <stdbool.h>
#include <stddef.h>
#include <stdint.h>

#ifdef __cplusplus
extern "C" {
#endif

/* The most entries of each list, and of the book. */
#define ALJUMESTE_LIMIT 1048576

/* The words of a cell of the book. */
#define ALJUMESTE_BOOK_WORDS 6

/* The places of the seven sizes: the entries of each list. */
enum {
    ALJUMESTE_VERTICES = 0,
    ALJUMESTE_POINTS = 1,
    ALJUMESTE_LINES = 2,
    ALJUMESTE_AREAS = 3,
    ALJUMESTE_VOLUMES = 4,
    ALJUMESTE_CURVES = 5,
    ALJUMESTE_CURVE_VERTICES = 6
};

/* The kinds of a file. */
enum {
    ALJUMESTE_CUBES = 0,
    ALJUMESTE_SIMPLICES = 1
};

/* What a call answers: finished, or the number of a refusal. Refusals 1 to 9 change no list, and neither does 10 from reading,
 * triangulation or normals. A refinement that ends with 10 leaves the mesh after its whole passes. */
enum {
    ALJUMESTE_FINISHED = 0,
    ALJUMESTE_VERSION = 1,       /* the file's version byte is not 1 */
    ALJUMESTE_KIND = 2,          /* its kind byte is neither 0 nor 1 */
    ALJUMESTE_ENDS_EARLY = 3,    /* it ends early */
    ALJUMESTE_LEFT_OVER = 4,     /* it has bytes left over */
    ALJUMESTE_BYTE = 5,          /* flags above 15, or a parity or smooth_time above 1 */
    ALJUMESTE_COORDINATE = 6,    /* a coordinate is not finite, or not from -1024 to 1024 */
    ALJUMESTE_VERTEX = 7,        /* a vertex number is not below the vertex count */
    ALJUMESTE_EMPTY_CURVE = 8,   /* a curve is without vertices */
    ALJUMESTE_LISTS = 9,         /* a list counts more entries than its lent cells, the curves' vertex numbers don't add up to the curve
                                    vertices, a list's lengths on the two benches are unequal, in words, whatever the kind, or sums or
                                    tallies have not as many cells as the vertices */
    ALJUMESTE_FULL = 10          /* some list or the book would exceed its lent cells or ALJUMESTE_LIMIT */
};

/* Refines in `depth` passes, each of which smooths; smooth_time 1 lets smoothing move w too, 0 does not. `sizes` are those of the mesh
 * handed in. `answer` becomes the number of whole passes, then the seven sizes of the mesh left; after a refusal by 5 to 9, and by 10
 * before the first pass, 0 passes and the sizes stated. Beside a curve's last vertex a pass writes 0; where none was made, the first bench is
 * as it was. */
uint8_t aljumeste_subdivide_cubes(
    float *positions, size_t positions_words, uint32_t *marks, size_t marks_words,
    uint32_t *points, size_t points_words, uint32_t *lines, size_t lines_words,
    uint32_t *areas, size_t areas_words, uint32_t *volumes, size_t volumes_words,
    uint32_t *curves, size_t curves_words, uint32_t *steps, size_t steps_words,
    float *other_positions, size_t other_positions_words, uint32_t *other_marks, size_t other_marks_words,
    uint32_t *other_points, size_t other_points_words, uint32_t *other_lines, size_t other_lines_words,
    uint32_t *other_areas, size_t other_areas_words, uint32_t *other_volumes, size_t other_volumes_words,
    uint32_t *other_curves, size_t other_curves_words, uint32_t *other_steps, size_t other_steps_words,
    uint32_t *book, size_t book_words, float *sums, size_t sums_words, uint32_t *tallies, size_t tallies_words,
    const size_t sizes[7], uint8_t depth, uint8_t smooth_time, size_t answer[8]);

/* The same for triangles and tetrahedra. */
uint8_t aljumeste_subdivide_simplices(
    float *positions, size_t positions_words, uint32_t *marks, size_t marks_words,
    uint32_t *points, size_t points_words, uint32_t *lines, size_t lines_words,
    uint32_t *areas, size_t areas_words, uint32_t *volumes, size_t volumes_words,
    uint32_t *curves, size_t curves_words, uint32_t *steps, size_t steps_words,
    float *other_positions, size_t other_positions_words, uint32_t *other_marks, size_t other_marks_words,
    uint32_t *other_points, size_t other_points_words, uint32_t *other_lines, size_t other_lines_words,
    uint32_t *other_areas, size_t other_areas_words, uint32_t *other_volumes, size_t other_volumes_words,
    uint32_t *other_curves, size_t other_curves_words, uint32_t *other_steps, size_t other_steps_words,
    uint32_t *book, size_t book_words, float *sums, size_t sums_words, uint32_t *tallies, size_t tallies_words,
    const size_t sizes[7], uint8_t depth, uint8_t smooth_time, size_t answer[8]);

/* What is left of one list after so many passes: answer[0] becomes its bench, 0 the first and 1 the second, and answer[1] how many words
 * of it count from its start, `words` or all there are. `words` are the list's size that the refinement answered times the words of a row,
 * `passes` is its answer[0]. Nothing is copied, and no word of the lists is looked at. */
void aljumeste_left(
    const uint32_t *first, size_t first_words, const uint32_t *second, size_t second_words,
    uint8_t passes, size_t words, size_t answer[2]);

/* The same of the positions, whose words are numbers. */
void aljumeste_left_positions(
    const float *first, size_t first_words, const float *second, size_t second_words,
    uint8_t passes, size_t numbers, size_t answer[2]);

/* Cuts cubes into simplices: at most two triangles (rows of 4) a square and six tetrahedra (rows of 5) a cube, in the order of the
 * squares and cubes. All else of the mesh stays as it is. `answer` becomes the sizes of the mesh of simplices; after a refusal those
 * stated. Cubes that close give tetrahedra that close: for faces without equal neighbours, and, where every tetrahedron has four different
 * corners, for all. */
uint8_t aljumeste_triangulate(
    const float *positions, size_t positions_words, const uint32_t *marks, size_t marks_words,
    const uint32_t *points, size_t points_words, const uint32_t *lines, size_t lines_words,
    const uint32_t *areas, size_t areas_words, const uint32_t *volumes, size_t volumes_words,
    const uint32_t *curves, size_t curves_words, const uint32_t *steps, size_t steps_words,
    const size_t sizes[7], uint32_t *triangles, size_t triangles_words,
    uint32_t *tetrahedra, size_t tetrahedra_words, size_t answer[7]);

/* The normals of a mesh of simplices at its triangles: three numbers for each vertex, a direction, or +0 in every place where there is
 * none. An odd triangle counts with the other sign, 1 minus twice its parity. With every parity changed a vertex without a direction stays
 * so, each component whose sum isn't zero changes its sign bit alone, and every other is +0 both times. (A sum that isn't zero may round
 * to a zero when it is normalised; then 0 and -0 stand opposite.) */
uint8_t aljumeste_compute_normals_3d(
    const float *positions, size_t positions_words, const uint32_t *marks, size_t marks_words,
    const uint32_t *points, size_t points_words, const uint32_t *lines, size_t lines_words,
    const uint32_t *areas, size_t areas_words, const uint32_t *volumes, size_t volumes_words,
    const uint32_t *curves, size_t curves_words, const uint32_t *steps, size_t steps_words,
    const size_t sizes[7], float *normals, size_t normals_words);

/* The same at its tetrahedra: four numbers for each vertex, on the same terms. */
uint8_t aljumeste_compute_normals_4d(
    const float *positions, size_t positions_words, const uint32_t *marks, size_t marks_words,
    const uint32_t *points, size_t points_words, const uint32_t *lines, size_t lines_words,
    const uint32_t *areas, size_t areas_words, const uint32_t *volumes, size_t volumes_words,
    const uint32_t *curves, size_t curves_words, const uint32_t *steps, size_t steps_words,
    const size_t sizes[7], float *normals, size_t normals_words);

/* Reads a whole file onto the first bench; of the second the lengths alone count. answer[0] becomes the kind, the other seven words the
 * sizes; after a refusal all eight are 0. Beside a curve's last vertex 0 is written. */
uint8_t aljumeste_read(
    const uint8_t *file, size_t file_bytes,
    float *positions, size_t positions_words, uint32_t *marks, size_t marks_words,
    uint32_t *points, size_t points_words, uint32_t *lines, size_t lines_words,
    uint32_t *areas, size_t areas_words, uint32_t *volumes, size_t volumes_words,
    uint32_t *curves, size_t curves_words, uint32_t *steps, size_t steps_words,
    const float *other_positions, size_t other_positions_words, const uint32_t *other_marks, size_t other_marks_words,
    const uint32_t *other_points, size_t other_points_words, const uint32_t *other_lines, size_t other_lines_words,
    const uint32_t *other_areas, size_t other_areas_words, const uint32_t *other_volumes, size_t other_volumes_words,
    const uint32_t *other_curves, size_t other_curves_words, const uint32_t *other_steps, size_t other_steps_words,
    size_t answer[8]);

/* The IEEE 754 square root. */
float aljumeste_root(float x);

/* Replaces v by its direction and answers true. A vector whose square rounds to 0 has none: v becomes +0 in every place, and the answer is
 * false. */
bool aljumeste_normalise_3d(float v[3]);
bool aljumeste_normalise_4d(float v[4]);

#ifdef __cplusplus
}
#endif

#endif
