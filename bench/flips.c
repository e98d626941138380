/* reverse and reflect by hand from one mesh into another: as bare copies, and behind the checks of the library. */
#include "../include/crossglimmer.h"
#include <math.h>
#include <string.h>

/* Up to so many corners of a face are compared with each other. */
#define FEW 16u

/* Its loop takes four numbers at once, which the compiler puts into one register as long as it is not inlined. */
#define FOURS __attribute__((noinline)) static

/* Number and place of a refusal, 0 where there is none. */
typedef struct verdict {
    uint32_t number, place;
} verdict;

/* ---- the results */

/* The corners of each face in the other order; quads and triangles without a loop. */
FOURS void turn_faces(const uint32_t *offsets, size_t faces, const uint32_t *restrict from, uint32_t *restrict to)
{
    for (size_t f = 0; f < faces; f++) {
        size_t a = offsets[f], b = offsets[f + 1];
        if (b - a == 4) {
            for (size_t i = 0; i < 4; i++)
                to[a + i] = from[a + 3 - i];
        } else if (b - a == 3) {
            to[a] = from[a + 2];
            to[a + 1] = from[a + 1];
            to[a + 2] = from[a];
        } else {
            for (size_t i = a; i < b; i++)
                to[i] = from[a + b - 1 - i];
        }
    }
}

/* y of each position turned round. */
FOURS void put_flipped(const float *restrict from, size_t n, float *restrict to)
{
    static const float signs[12] = {1, -1, 1, 1, -1, 1, 1, -1, 1, 1, -1, 1};
    size_t at = 0;
    for (; at + 12 <= n; at += 12)
        for (size_t i = 0; i < 12; i++)
            to[at + i] = from[at + i] * signs[i];
    for (; at < n; at++)
        to[at] = from[at] * signs[at % 3];
}

static void put_faces(cg_mesh mesh, cg_room room)
{
    memcpy(room.offsets, mesh.offsets, mesh.offsets_length * sizeof *mesh.offsets);
    turn_faces(mesh.offsets, mesh.offsets_length - 1, mesh.corners, room.corners);
}

bool limit_reverse(cg_mesh mesh, cg_room room)
{
    put_faces(mesh, room);
    memcpy(room.coords, mesh.coords, mesh.coords_length * sizeof *mesh.coords);
    return true;
}

bool limit_reflect(cg_mesh mesh, cg_room room)
{
    put_faces(mesh, room);
    put_flipped(mesh.coords, mesh.coords_length, room.coords);
    return true;
}

/* ---- the table, test by test */

/* Whether a vertex stands twice in a face whose vertices are below the limit. */
static bool twice(const uint32_t *run, size_t n)
{
    uint64_t marks[CG_LIMIT / 64 + 1];
    if (n <= FEW) {
        for (size_t i = 1; i < n; i++)
            for (size_t j = 0; j < i; j++)
                if (run[i] == run[j])
                    return true;
        return false;
    }
    memset(marks, 0, sizeof marks);
    for (size_t i = 0; i < n; i++) {
        uint64_t *word = marks + run[i] / 64, mark = (uint64_t)1 << run[i] % 64;
        if (*word & mark)
            return true;
        *word |= mark;
    }
    return false;
}

/* Numbers 1 and 2. */
static verdict refused_by_size(cg_mesh mesh)
{
    size_t faces = mesh.offsets_length - 1;
    if (mesh.offsets_length == 0 || mesh.offsets[0] != 0 || mesh.offsets[faces] != mesh.corners_length)
        return (verdict){1, 0};
    for (size_t f = 0; f < faces; f++)
        if (mesh.offsets[f + 1] < mesh.offsets[f])
            return (verdict){1, 0};
    if (mesh.coords_length % 3 != 0)
        return (verdict){1, 1};
    if (faces > CG_LIMIT)
        return (verdict){2, 0};
    if (mesh.corners_length > CG_LIMIT)
        return (verdict){2, 1};
    if (mesh.coords_length / 3 > CG_LIMIT)
        return (verdict){2, 2};
    return (verdict){0, 0};
}

/* Numbers 4 to 7 of a mesh of right size. */
static verdict refused_by_faces(cg_mesh mesh)
{
    uint32_t faces = (uint32_t)mesh.offsets_length - 1;
    for (uint32_t i = 0; i < mesh.coords_length; i++)
        if (!isfinite(mesh.coords[i]))
            return (verdict){4, i};
    for (uint32_t f = 0; f < faces; f++)
        if (mesh.offsets[f + 1] - mesh.offsets[f] < 3)
            return (verdict){5, f};
    for (uint32_t c = 0; c < mesh.corners_length; c++)
        if (mesh.corners[c] >= mesh.coords_length / 3)
            return (verdict){6, c};
    for (uint32_t f = 0; f < faces; f++)
        if (twice(mesh.corners + mesh.offsets[f], mesh.offsets[f + 1] - mesh.offsets[f]))
            return (verdict){7, f};
    return (verdict){0, 0};
}

/* Number 13. The result is as large as the mesh and as finite, so 12 and 14 are never answered. */
static verdict refused_by_room(cg_mesh mesh, cg_room room)
{
    if (room.offsets_length < mesh.offsets_length)
        return (verdict){13, 0};
    if (room.corners_length < mesh.corners_length)
        return (verdict){13, 1};
    if (room.coords_length < mesh.coords_length)
        return (verdict){13, 2};
    return (verdict){0, 0};
}

static verdict refused(cg_mesh mesh, cg_room room)
{
    verdict said = refused_by_size(mesh);
    if (said.number == 0)
        said = refused_by_faces(mesh);
    return said.number == 0 ? refused_by_room(mesh, room) : said;
}

/* ---- the same tests with no place and in no order: where all are passed, the table is not needed
 *
 * Each sets the top bit of a number where it fails; four such numbers are gathered side by side. */

static bool passed(const uint32_t bad[4])
{
    return (bad[0] | bad[1] | bad[2] | bad[3]) >> 31 == 0;
}

/* A number that is not below an end of less than 2^31. */
static uint32_t past(uint32_t number, uint32_t end)
{
    return number | (end - 1 - number);
}

static uint32_t same(uint32_t a, uint32_t b)
{
    return -(uint32_t)(a == b);
}

/* A number that is not finite: its exponent is all ones, and 1 more carries into the top bit. */
static uint32_t loose(float number)
{
    uint32_t bits;
    memcpy(&bits, &number, sizeof bits);
    return (bits & 0x7f800000) + 0x00800000;
}

/* A face that ends past the corners or has under three. */
static uint32_t unshaped(const uint32_t *offsets, uint32_t corners)
{
    return past(offsets[1], corners + 1) | (offsets[1] - offsets[0] - 3);
}

FOURS bool offsets_good(const uint32_t *offsets, size_t faces, uint32_t corners)
{
    uint32_t bad[4] = {0};
    size_t f = 0;
    for (; f + 4 <= faces; f += 4)
        for (int i = 0; i < 4; i++)
            bad[i] |= unshaped(offsets + f + i, corners);
    for (; f < faces; f++)
        bad[0] |= unshaped(offsets + f, corners);
    return passed(bad) && offsets[0] == 0 && offsets[faces] == corners;
}

FOURS bool coords_good(const float *coords, size_t n)
{
    uint32_t bad[4] = {0};
    size_t at = 0;
    for (; at + 4 <= n; at += 4)
        for (int i = 0; i < 4; i++)
            bad[i] |= loose(coords[at + i]);
    for (; at < n; at++)
        bad[0] |= loose(coords[at]);
    return passed(bad);
}

/* Each corner of a quad is compared with the two after it, which meets every pair. */
FOURS bool quads_good(const uint32_t *corners, size_t n, uint32_t positions)
{
    uint32_t bad[4] = {0};
    for (size_t at = 0; at < n; at += 4)
        for (int i = 0; i < 4; i++)
            bad[i] |= past(corners[at + i], positions) | same(corners[at + i], corners[at + (i + 1) % 4]) |
                      same(corners[at + i], corners[at + (i + 2) % 4]);
    return passed(bad);
}

static bool face_good(const uint32_t *run, size_t n, uint32_t positions)
{
    for (size_t i = 0; i < n; i++)
        if (run[i] >= positions)
            return false;
    return !twice(run, n);
}

/* How many faces are quads before the first that is none. */
static size_t quads(const uint32_t *offsets, size_t faces)
{
    size_t f = 0;
    while (f < faces && offsets[f + 1] - offsets[f] == 4)
        f++;
    return f;
}

static bool faces_good(cg_mesh mesh)
{
    uint32_t positions = (uint32_t)(mesh.coords_length / 3);
    size_t faces = mesh.offsets_length - 1, f = 0;
    while (f < faces) {
        size_t row = quads(mesh.offsets + f, faces - f), end = row > 0 ? f + row : f + 1;
        const uint32_t *run = mesh.corners + mesh.offsets[f];
        size_t n = mesh.offsets[end] - mesh.offsets[f];
        if (!(row > 0 ? quads_good : face_good)(run, n, positions))
            return false;
        f = end;
    }
    return true;
}

static bool good(cg_mesh mesh, cg_room room)
{
    size_t faces = mesh.offsets_length - 1, positions = mesh.coords_length / 3;
    return mesh.offsets_length > 0 && faces <= CG_LIMIT && mesh.corners_length <= CG_LIMIT &&
           mesh.coords_length % 3 == 0 && positions <= CG_LIMIT && refused_by_room(mesh, room).number == 0 &&
           offsets_good(mesh.offsets, faces, (uint32_t)mesh.corners_length) &&
           coords_good(mesh.coords, mesh.coords_length) && faces_good(mesh);
}

/* ---- the calls */

static verdict checked(bool put(cg_mesh, cg_room), cg_mesh mesh, cg_room room)
{
    verdict said = good(mesh, room) ? (verdict){0, 0} : refused(mesh, room);
    if (said.number == 0)
        put(mesh, room);
    return said;
}

verdict checked_reverse(cg_mesh mesh, cg_room room) { return checked(limit_reverse, mesh, room); }
verdict checked_reflect(cg_mesh mesh, cg_room room) { return checked(limit_reflect, mesh, room); }
