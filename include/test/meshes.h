/* What the tests share: meshes, runs to lend, what is asked of an answer, and the calls, over runs or over structs. */
#include "crossglimmer.h"

#include <math.h>
#include <stdio.h>
#include <stdlib.h>
#include <string.h>

typedef struct mesh {
    uint32_t offsets[60200];
    uint32_t corners[60200];
    float coords[180300];
    size_t offsets_length, corners_length, coords_length;
} mesh;

static mesh in; /* the mesh that is read */
static mesh out; /* the runs that are written */

#define RUNS(m) (m)->offsets, (m)->offsets_length, (m)->corners, (m)->corners_length, (m)->coords, (m)->coords_length

/* ---- meshes to read */

static void clear(void)
{
    in.offsets[0] = 0;
    in.offsets_length = 1;
    in.corners_length = 0;
    in.coords_length = 0;
}

static void add_face(size_t arity, const uint32_t *run)
{
    memcpy(in.corners + in.corners_length, run, arity * sizeof *run);
    in.corners_length += arity;
    in.offsets[in.offsets_length++] = (uint32_t)in.corners_length;
}

static void add_point(float x, float y, float z)
{
    in.coords[in.coords_length++] = x;
    in.coords[in.coords_length++] = y;
    in.coords[in.coords_length++] = z;
}

static void add_triangle(uint32_t a, uint32_t b, uint32_t c)
{
    uint32_t run[3];
    run[0] = a;
    run[1] = b;
    run[2] = c;
    add_face(3, run);
}

/* The tetrahedron, scaled. */
static void tetrahedron(float s)
{
    clear();
    add_triangle(0, 1, 2);
    add_triangle(0, 3, 1);
    add_triangle(0, 2, 3);
    add_triangle(1, 3, 2);
    add_point(s, s, s);
    add_point(-s, s, -s);
    add_point(s, -s, -s);
    add_point(-s, -s, s);
}

/* All its coordinates the same. */
static void heap(float s)
{
    size_t i;
    tetrahedron(1);
    for (i = 0; i < in.coords_length; i++)
        in.coords[i] = s;
}

/* Two triangles back to back: each vertex in two faces. */
static void pillow(void)
{
    clear();
    add_triangle(0, 1, 2);
    add_triangle(0, 2, 1);
    add_point(1, 1, 1);
    add_point(-1, 1, -1);
    add_point(1, -1, -1);
}

/* Two tetrahedra that share vertex 0. */
static void pinched(void)
{
    tetrahedron(1);
    add_triangle(0, 4, 5);
    add_triangle(0, 6, 4);
    add_triangle(0, 5, 6);
    add_triangle(4, 6, 5);
    add_point(-2, 2, -2);
    add_point(2, -2, -2);
    add_point(-2, -2, 2);
}

/* A closed surface of 6 n n corners on 3 n positions: triangles (i, n + j, 2 n + k), once with k = i + j, once turned
 * round with k = i + j + 1. */
static void surface(uint32_t n)
{
    uint32_t i, j;
    clear();
    for (i = 0; i < n; i++)
        for (j = 0; j < n; j++) {
            add_triangle(i, n + j, 2 * n + (i + j) % n);
            add_triangle(n + j, i, 2 * n + (i + j + 1) % n);
        }
    for (i = 0; i < 3 * n; i++)
        add_point((float)i, 1, -1);
}

/* The tetrahedron, with positions that no face has up to so many. */
static void with_spares(size_t positions)
{
    tetrahedron(1);
    while (in.coords_length < 3 * positions)
        add_point(0, 0, 0);
}

/* So many faces of sixty corners, on sixty positions. */
static void stack(uint32_t faces)
{
    uint32_t run[60], i;
    clear();
    for (i = 0; i < 60; i++) {
        run[i] = i;
        add_point((float)i, 1, -1);
    }
    for (i = 0; i < faces; i++)
        add_face(60, run);
}

/* ---- meshes that are refused */

typedef void (*make)(void);

static void make_falling(void) { tetrahedron(1); in.offsets[0] = 1; }
static void make_uneven(void) { tetrahedron(1); in.coords_length = 11; }
static void make_many_faces(void)
{
    clear();
    memset(in.offsets, 0, sizeof in.offsets);
    in.offsets_length = 60002;
}
static void make_many_corners(void)
{
    stack(1000);
    in.offsets[in.offsets_length - 1] = 60001;
    in.corners_length = 60001;
}
static void make_many_positions(void)
{
    clear();
    memset(in.coords, 0, sizeof in.coords);
    in.coords_length = 180003;
}
static void make_loose(void) { tetrahedron(1); in.coords[5] = INFINITY; }
static void make_short(void) { tetrahedron(1); in.offsets[4] = 11; in.corners_length = 11; }
static void make_outside(void) { tetrahedron(1); in.corners[7] = 4; }
static void make_twice(void) { tetrahedron(1); in.corners[7] = 0; }
static void make_met(void) { tetrahedron(1); add_triangle(0, 1, 2); }
static void make_alone(void) { tetrahedron(1); in.offsets_length = 2; in.corners_length = 3; }

typedef struct fault {
    make mesh;
    uint32_t number, place;
} fault;

/* Asked of every function, then 8 and 9, then 10 and 11. */
static const fault FAULTS[] = {
    {make_falling, 1, 0}, {make_uneven, 1, 1}, {make_many_faces, 2, 0}, {make_many_corners, 2, 1},
    {make_many_positions, 2, 2}, {make_loose, 4, 5}, {make_short, 5, 3}, {make_outside, 6, 7},
    {make_twice, 7, 2}, {make_met, 8, 12}, {make_alone, 9, 0}, {pillow, 10, 0}, {pinched, 11, 0},
};

enum { TO_7 = 9, TO_9 = 11, TO_11 = 13 };

/* ---- runs to write */

enum { GUARD = 100 }; /* elements past the lent ones that are looked at too */

/* Lends so many elements, each with a number of its own. */
static void lend(mesh *m, size_t offsets, size_t corners, size_t coords)
{
    size_t i;
    m->offsets_length = offsets;
    m->corners_length = corners;
    m->coords_length = coords;
    for (i = 0; i < offsets + GUARD; i++)
        m->offsets[i] = (uint32_t)(7 + i);
    for (i = 0; i < corners + GUARD; i++)
        m->corners[i] = (uint32_t)(7 + i);
    for (i = 0; i < coords + GUARD; i++)
        m->coords[i] = (float)i - 0.5f;
}

static void fill(void) { lend(&out, 1000, 1000, 3000); }

/* Whether they are as they were from so many elements on. */
static bool untouched(const mesh *m, size_t offsets, size_t corners, size_t coords)
{
    size_t i;
    for (i = offsets; i < m->offsets_length + GUARD; i++)
        if (m->offsets[i] != (uint32_t)(7 + i))
            return false;
    for (i = corners; i < m->corners_length + GUARD; i++)
        if (m->corners[i] != (uint32_t)(7 + i))
            return false;
    for (i = coords; i < m->coords_length + GUARD; i++)
        if (m->coords[i] != (float)i - 0.5f)
            return false;
    return true;
}

/* ---- what is asked of an answer */

static int calls, wrong;

static void expect(const char *name, bool good, cg_answer a)
{
    calls++;
    if (!good) {
        wrong++;
        printf("%s: unexpected answer %u %u %u %u %u %u\n", name, (unsigned)a.number, (unsigned)a.place,
               (unsigned)a.step, (unsigned)a.v, (unsigned)a.e, (unsigned)a.f);
    }
}

static bool is(cg_answer a, uint32_t number, uint32_t place, uint32_t step)
{
    return a.number == number && a.place == place && a.step == step && a.v == 0 && a.e == 0 && a.f == 0;
}

/* ---- the calls, over runs or over structs */

static bool by_structs; /* which of the two; every test is made with both */

static cg_mesh whole(const mesh *m)
{
    cg_mesh w;
    w.offsets = m->offsets;
    w.offsets_length = m->offsets_length;
    w.corners = m->corners;
    w.corners_length = m->corners_length;
    w.coords = m->coords;
    w.coords_length = m->coords_length;
    return w;
}

static cg_room room(mesh *m)
{
    cg_room r;
    r.offsets = m->offsets;
    r.offsets_length = m->offsets_length;
    r.corners = m->corners;
    r.corners_length = m->corners_length;
    r.coords = m->coords;
    r.coords_length = m->coords_length;
    return r;
}

static cg_answer call_check(void) { return by_structs ? cg_check_of(whole(&in)) : cg_check(RUNS(&in)); }
static cg_answer call_check_full(void) { return by_structs ? cg_check_full_of(whole(&in)) : cg_check_full(RUNS(&in)); }

static cg_answer call_edges(uint32_t (*list)[2], size_t length)
{
    return by_structs ? cg_edges_of(whole(&in), list, length) : cg_edges(RUNS(&in), list, length);
}

/* What an operator takes beside its mesh. */
typedef struct extras {
    bool has_ratio, has_height;
    float ratio, height;
    cg_masks masks;
} extras;

static const extras NONE = {false, false, 0.0f, 0.0f, {false, NULL, 0, false}};

#define RATIO x.has_ratio, x.ratio
#define HEIGHT x.has_height, x.height

static cg_answer call_triangulate(const mesh *m, bool shorter, mesh *to)
{
    return by_structs ? cg_triangulate_of(whole(m), shorter, room(to)) : cg_triangulate(RUNS(m), shorter, RUNS(to));
}

static cg_answer call_kis(const mesh *m, bool has_height, float height, cg_picks p, mesh *to)
{
    const uint32_t none = 0;
    if (by_structs)
        return cg_kis_of(whole(m), has_height, height, p, room(to));
    return cg_kis(RUNS(m), has_height, height, p.has_arities, p.arities != NULL ? p.arities : &none, p.arities_length,
                  p.has_numbers, p.numbers != NULL ? p.numbers : &none, p.numbers_length, p.regular, RUNS(to));
}

static cg_answer kis_in_list(const mesh *m, extras x, mesh *to)
{
    cg_picks p = cg_pick_all();
    p.has_arities = x.masks.has_arities;
    p.arities = x.masks.arities;
    p.arities_length = x.masks.arities_length;
    p.regular = x.masks.regular;
    return call_kis(m, HEIGHT, p, to);
}

static cg_answer perform_runs(uint32_t code, const mesh *m, extras x, mesh *to)
{
    switch (code) {
    case CG_AMBO: return cg_ambo(RUNS(m), RATIO, RUNS(to));
    case CG_CHAMFER: return cg_chamfer(RUNS(m), RATIO, RUNS(to));
    case CG_DUAL: return cg_dual(RUNS(m), RUNS(to));
    case CG_GYRO: return cg_gyro(RUNS(m), RATIO, HEIGHT, RUNS(to));
    case CG_PROPELLOR: return cg_propellor(RUNS(m), RATIO, RUNS(to));
    case CG_QUINTO: return cg_quinto(RUNS(m), HEIGHT, RUNS(to));
    case CG_REFLECT: return cg_reflect(RUNS(m), RUNS(to));
    case CG_REVERSE: return cg_reverse(RUNS(m), RUNS(to));
    default: return cg_whirl(RUNS(m), RATIO, HEIGHT, RUNS(to));
    }
}

static cg_answer perform_structs(uint32_t code, cg_mesh m, extras x, cg_room to)
{
    switch (code) {
    case CG_AMBO: return cg_ambo_of(m, RATIO, to);
    case CG_CHAMFER: return cg_chamfer_of(m, RATIO, to);
    case CG_DUAL: return cg_dual_of(m, to);
    case CG_GYRO: return cg_gyro_of(m, RATIO, HEIGHT, to);
    case CG_PROPELLOR: return cg_propellor_of(m, RATIO, to);
    case CG_QUINTO: return cg_quinto_of(m, HEIGHT, to);
    case CG_REFLECT: return cg_reflect_of(m, to);
    case CG_REVERSE: return cg_reverse_of(m, to);
    default: return cg_whirl_of(m, RATIO, HEIGHT, to);
    }
}

/* An operator by its code. */
static cg_answer perform(uint32_t code, const mesh *m, extras x, mesh *to)
{
    if (code == CG_KIS)
        return kis_in_list(m, x, to);
    if (code == CG_TRIANGULATE)
        return call_triangulate(m, true, to);
    return by_structs ? perform_structs(code, whole(m), x, room(to)) : perform_runs(code, m, x, to);
}
