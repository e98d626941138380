/* Calls every function of crossglimmer.h, over runs and over structs: done, and with each number that it can answer.
 * Compiles as C and as C++. */
#include "meshes.h"
#include "runs.h"
#include "files.h"
#include "structs.h"
#include "stack.h"

/* ---- the numbers in words */

static const char *const WORDS[20] = {
    "done",
    "offsets or coordinates of wrong shape",
    "input over a limit",
    "ratio or height not finite",
    "coordinate not finite",
    "face under three corners",
    "vertex number not below the positions",
    "vertex twice in one face",
    "directed edge met before",
    "directed edge without reverse",
    "vertex in fewer than three faces",
    "faces round a vertex form more than one fan",
    "result over a limit",
    "result does not fit the lent output",
    "result coordinate not finite",
    "file ends before an item is whole",
    "count of a file over its limit",
    "unknown code, forbidden flag or non-zero absent number",
    "bytes left over",
    "not a number of the table",
};

static void test_words(void)
{
    cg_answer a = refusal(0, 0, 0).answer;
    for (a.number = 0; a.number < 20; a.number++)
        expect("meaning", strcmp(cg_meaning(a.number), WORDS[a.number]) == 0, a);
    a.number = 0xFFFFFFFFu;
    expect("meaning", strcmp(cg_meaning(a.number), WORDS[19]) == 0, a);
}

/* ---- the operators */

typedef struct operation {
    const char *name;
    uint32_t code;
    bool ratio, height; /* which numbers it takes */
    bool closed, round; /* whether it asks 8 and 9, and 10 and 11 */
    uint32_t v, c, f;   /* positions, corners, faces of its result on the tetrahedron */
    uint32_t over;      /* the least surface of which its result has too many corners, or 0 */
} operation;

static const operation OPERATIONS[] = {
    {"reverse", CG_REVERSE, false, false, false, false, 4, 12, 4, 0},
    {"reflect", CG_REFLECT, false, false, false, false, 4, 12, 4, 0},
    {"triangulate", CG_TRIANGULATE, false, false, false, false, 4, 12, 4, 0},
    {"ambo", CG_AMBO, true, false, true, true, 6, 24, 8, 71},
    {"dual", CG_DUAL, false, false, true, true, 4, 12, 4, 0},
    {"kis", CG_KIS, false, true, true, false, 8, 36, 12, 58},
    {"chamfer", CG_CHAMFER, true, false, true, false, 16, 48, 10, 51},
    {"gyro", CG_GYRO, true, true, true, false, 20, 60, 12, 45},
    {"propellor", CG_PROPELLOR, true, false, true, false, 16, 60, 16, 45},
    {"whirl", CG_WHIRL, true, true, true, false, 28, 84, 16, 38},
    {"quinto", CG_QUINTO, false, true, true, false, 22, 72, 16, 41},
};

static void refused(const operation *o, extras x, uint32_t number, uint32_t place)
{
    cg_answer a = perform(o->code, &in, x, &out);
    expect(o->name, is(a, number, place, 0) && untouched(&out, 0, 0, 0), a);
}

static void done(const operation *o, extras x)
{
    cg_answer a = perform(o->code, &in, x, &out);
    bool good = a.number == 0 && a.place == 0 && a.step == 0 && a.v == o->v && a.e == o->c / 2 && a.f == o->f;
    good = good && out.offsets[0] == 0 && out.offsets[o->f] == o->c && untouched(&out, o->f + 1, o->c, 3 * o->v);
    expect(o->name, good, a);
}

/* ---- the numbers in turn */

static void test_table(const operation *o)
{
    size_t i, asked = o->round ? TO_11 : o->closed ? TO_9 : TO_7;
    for (i = 0; i < asked; i++) {
        FAULTS[i].mesh();
        refused(o, NONE, FAULTS[i].number, FAULTS[i].place);
    }
}

static void test_numbers(const operation *o)
{
    const float loose[3] = {INFINITY, -INFINITY, NAN};
    int i;
    tetrahedron(1);
    for (i = 0; i < 3; i++) {
        extras x = NONE;
        x.ratio = x.height = loose[i]; /* absent: not looked at */
        fill();
        done(o, x);
        fill();
        x.has_height = true;
        if (o->height)
            refused(o, x, 3, 1);
        x.has_ratio = true;
        if (o->ratio)
            refused(o, x, 3, 0);
    }
}

static void test_room(const operation *o)
{
    tetrahedron(1);
    fill();
    out.offsets_length = o->f;
    out.corners_length = 0;
    refused(o, NONE, 13, 0);
    out.offsets_length = o->f + 1;
    out.corners_length = o->c - 1;
    refused(o, NONE, 13, 1);
    out.corners_length = o->c;
    out.coords_length = 3 * o->v - 1;
    refused(o, NONE, 13, 2);
    out.coords_length = 3 * o->v;
    done(o, NONE);
    fill();
}

/* 12 where the operator can answer it: corners, positions, and faces, which takes a large mesh and is asked once. */
static void test_limits(const operation *o)
{
    if (o->code == CG_TRIANGULATE) {
        stack(400);
        refused(o, NONE, 12, 1);
    }
    if (o->over > 0) {
        surface(o->over);
        refused(o, NONE, 12, 1);
    }
    if (o->closed && !o->round) {
        with_spares(60000);
        refused(o, NONE, 12, 2);
    }
    if (o->code == CG_PROPELLOR) {
        surface(87);
        refused(o, NONE, 12, 0);
    }
}

/* 14, where a sum or a difference of positions can overflow: a mean of two, as ambo's, cannot. */
static void test_overflow(const operation *o)
{
    cg_answer a;
    if (!o->closed || o->code == CG_AMBO)
        return;
    if (o->code == CG_PROPELLOR)
        tetrahedron(3e38f);
    else
        heap(3e38f);
    a = perform(o->code, &in, NONE, &out);
    expect(o->name, is(a, 14, a.place, 0) && a.place < 3 * o->v && untouched(&out, 0, 0, 0), a);
}

/* ---- checks and edges */

static void test_checks(void)
{
    size_t i;
    cg_answer a;
    for (i = 0; i < TO_11; i++) {
        FAULTS[i].mesh();
        a = call_check();
        expect("check", i < TO_9 ? is(a, FAULTS[i].number, FAULTS[i].place, 0) : is(a, 0, 0, 0), a);
        a = call_check_full();
        expect("check_full", is(a, FAULTS[i].number, FAULTS[i].place, 0), a);
    }
    tetrahedron(1);
    a = call_check();
    expect("check", is(a, 0, 0, 0), a);
    a = call_check_full();
    expect("check_full", is(a, 0, 0, 0), a);
    clear();
    a = call_check_full();
    expect("check_full", is(a, 0, 0, 0), a);
}

static void test_edges(void)
{
    static const uint32_t edges[6][2] = {{0, 1}, {1, 2}, {0, 3}, {0, 2}, {2, 3}, {1, 3}};
    uint32_t list[7][2], kept[7][2];
    size_t i;
    cg_answer a;
    memset(list, 9, sizeof list);
    memcpy(kept, list, sizeof list);
    for (i = 0; i < TO_9; i++) {
        FAULTS[i].mesh();
        a = call_edges(list, 7);
        expect("edges", is(a, FAULTS[i].number, FAULTS[i].place, 0) && memcmp(list, kept, sizeof list) == 0, a);
    }
    tetrahedron(1);
    a = call_edges(list, 5);
    expect("edges", is(a, 13, 0, 0) && memcmp(list, kept, sizeof list) == 0, a);
    a = call_edges(list, 7);
    expect("edges", a.number == 0 && a.e == 6 && a.v == 0 && a.f == 0, a);
    expect("edges", memcmp(list, edges, sizeof edges) == 0 && list[6][1] == kept[6][1], a);
}

/* ---- faces that the paper gives, masks and diagonals */

static void expect_faces(const char *name, size_t from, size_t count, const uint32_t *corners, cg_answer a)
{
    expect(name, a.number == 0 && memcmp(out.corners + from, corners, count * sizeof *corners) == 0, a);
}

static void test_pieces(void)
{
    static const uint32_t dual[12] = {0, 2, 1, 0, 1, 3, 0, 3, 2, 1, 2, 3};
    static const uint32_t ambo[6] = {0, 1, 3, 2, 5, 0};
    static const uint32_t gyro[5] = {0, 8, 4, 15, 14};
    static const uint32_t whirl[6] = {16, 17, 1, 18, 5, 4};
    tetrahedron(1);
    fill();
    expect_faces("dual", 0, 12, dual, perform(CG_DUAL, &in, NONE, &out));
    expect_faces("ambo", 0, 6, ambo, perform(CG_AMBO, &in, NONE, &out));
    expect_faces("gyro", 0, 5, gyro, perform(CG_GYRO, &in, NONE, &out));
    expect_faces("whirl", 0, 6, whirl, perform(CG_WHIRL, &in, NONE, &out));
}

static cg_answer kis_masked(bool has_arities, const uint32_t *arities, size_t arities_length, bool has_numbers,
                            const uint32_t *numbers, size_t numbers_length, bool regular)
{
    cg_picks p;
    p.has_arities = has_arities;
    p.arities = arities;
    p.arities_length = arities_length;
    p.has_numbers = has_numbers;
    p.numbers = numbers;
    p.numbers_length = numbers_length;
    p.regular = regular;
    return call_kis(&in, true, 0.5f, p, &out);
}

static void test_masks(void)
{
    uint32_t list[2] = {3, 1};
    cg_answer a;
    tetrahedron(1);
    a = kis_masked(true, list, 1, true, list + 1, 1, true);
    expect("kis", a.number == 0 && a.v == 5 && a.f == 6, a);
    a = kis_masked(true, list + 1, 1, false, list, 0, false);
    expect("kis", a.number == 0 && a.v == 4 && a.f == 4, a);
    a = kis_masked(false, list, 2, true, list, 0, false);
    expect("kis", a.number == 0 && a.v == 4 && a.f == 4, a);
    a = kis_masked(false, list, 2, true, list, 2, false);
    expect("kis", a.number == 0 && a.v == 6 && a.f == 8, a);
}

/* Two triangles and three quadrilaterals. */
static void prism(void)
{
    static const uint32_t sides[3][4] = {{1, 0, 3, 4}, {2, 1, 4, 5}, {0, 2, 5, 3}};
    uint32_t i;
    clear();
    add_triangle(0, 1, 2);
    add_triangle(5, 4, 3);
    for (i = 0; i < 3; i++)
        add_face(4, sides[i]);
    for (i = 0; i < 6; i++)
        add_point((float)(i % 3 == 1), (float)(i % 3 == 2), (float)(i / 3));
}

/* Whichever faces are picked, the room that the header names does; where all are, it is the least. */
static void test_kis_room(void)
{
    uint32_t bits;
    for (bits = 0; bits < 32; bits++) {
        uint32_t picked[5], p = 0, q = 0, f, place;
        cg_answer a;
        prism();
        for (f = 0; f < 5; f++)
            if ((bits >> f & 1) != 0) {
                picked[p++] = f;
                q += in.offsets[f + 1] - in.offsets[f];
            }
        lend(&out, 18 + 1, 3 * 18, 3 * (6 + 5));
        a = kis_masked(false, NULL, 0, true, picked, p, false);
        expect("kis", a.number == 0 && a.f == 5 - p + q && out.offsets[a.f] == 18 + 2 * q && a.v == 6 + p, a);
        for (place = 0; p == 5 && place < 3; place++) {
            lend(&out, 18 + 1 - (place == 0), 3 * 18 - (place == 1), 3 * (6 + 5) - (place == 2));
            a = kis_masked(false, NULL, 0, true, picked, p, false);
            expect("kis", is(a, 13, place, 0) && untouched(&out, 0, 0, 0), a);
        }
    }
    fill();
}

static void test_diagonals(void)
{
    static const uint32_t quad[4] = {0, 1, 2, 3};
    static const uint32_t shorter[6] = {1, 2, 3, 1, 3, 0}, longer[6] = {0, 1, 2, 0, 2, 3};
    clear();
    add_face(4, quad);
    add_point(-2, 0, 0);
    add_point(0, -1, 0);
    add_point(2, 0, 0);
    add_point(0, 1, 0);
    expect_faces("triangulate", 0, 6, shorter, call_triangulate(&in, true, &out));
    expect_faces("triangulate", 0, 6, longer, call_triangulate(&in, false, &out));
}

static void test_all(void)
{
    size_t i;
    for (i = 0; i < sizeof OPERATIONS / sizeof *OPERATIONS; i++) {
        fill();
        test_table(&OPERATIONS[i]);
        test_numbers(&OPERATIONS[i]);
        test_room(&OPERATIONS[i]);
        test_limits(&OPERATIONS[i]);
        test_overflow(&OPERATIONS[i]);
    }
    test_checks();
    test_edges();
    test_pieces();
    test_masks();
    test_kis_room();
    test_diagonals();
    test_lists();
    test_recipes();
    test_files();
    test_stack();
}

int main(void)
{
    test_words();
    by_structs = false;
    test_all();
    by_structs = true;
    test_all();
    test_forms();
    test_nulls();
    printf("%d answers, %d unexpected\n", calls, wrong);
    return wrong == 0 ? EXIT_SUCCESS : EXIT_FAILURE;
}
