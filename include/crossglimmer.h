/* Crossglimmer for C and C++: the checks of a mesh, its edge list, the eleven operators, the ten lists, recipes and the
 * panel file.
 *
 * A MESH is three runs of numbers:
 *   offsets  F + 1 numbers, the first 0, none smaller than the one before, the last the number of corners;
 *            face f is the corners from offsets[f] up to, not including, offsets[f + 1]
 *   corners  vertex numbers
 *   coords   three floats a position: x, y, z of vertex v stand at 3 v, 3 v + 1, 3 v + 2
 * Each run is a pointer and how many ELEMENTS it has (three times the positions for coords).
 *
 * Faces run clockwise seen from outside, and a height above 0 then goes out; data from OFF, OBJ or STL files run
 * counter-clockwise as a rule: `reverse` them before, and `reverse` the result after.
 *
 * Any numbers may stand in the runs: a mesh that is not good is answered by a number, never by a crash.
 * Two things are the caller's, as C cannot say them:
 *   - every pointer points to that many elements, aligned and not null, also where the length is 0 (the calls over
 *     structs take a null there);
 *   - a run that is written overlaps no other run of the call.
 * A call keeps nothing, allocates nothing and writes only to the runs named out..., and in lists and recipes to the
 * work meshes and the ledger; it may be made from several threads at once, on runs of their own.
 *
 * The STACK that a call takes: a check, the edges or an operator under 8 kB (of 1,024 bytes), a list under 20 kB, a
 * recipe of 16 steps under 40 kB (2 kB a step), a call of the panel file under 2 kB. This is measured, not proved: each
 * call was run on x86-64 in a thread whose stack had been filled with one byte, and then the lowest changed byte was
 * looked for. The size of the mesh made hardly a difference.
 *
 * The ANSWER is six numbers. Where number is 0 the call is done: v, e and f are the positions, edges (half the
 * corners, rounded down) and faces of the mesh written at the front of the out runs; what lies past it is as it was.
 * The corners written are out_offsets[f], so nothing else need be counted: the mesh is f + 1 offsets, out_offsets[f]
 * corners and 3 v coords.
 * Else the call is refused, v, e and f are 0, and NO element of any out run was changed:
 *
 *   number  when                                                    place
 *   1       offsets or coordinates of wrong shape                   0 offsets, 1 coordinates
 *   2       input over a limit                                      0 faces, 1 corners, 2 positions, 3 steps
 *   3       ratio or height not finite                              0 ratio, 1 height
 *   4       coordinate not finite                                   its index in coords
 *   5       face under three corners                                the face
 *   6       vertex number not below the positions                   the corner
 *   7       vertex twice in one face                                the face
 *   8       directed edge met before                                the corner it starts at
 *   9       directed edge without reverse                           the corner it starts at
 *   10      vertex in fewer than three faces                        the vertex
 *   11      faces round a vertex form more than one fan             the vertex
 *   12      result over a limit                                     0 faces, 1 corners, 2 positions
 *   13      result does not fit the lent output                     0 offsets, edges or bytes, 1 corners,
 *                                                                   2 coordinates, 3 ledger or steps
 *   14      result coordinate not finite                            its index in the result's coords
 *   15      file ends before an item is whole                       the byte that the item starts at
 *   16      count of a file over its limit                          the byte that the count starts at
 *   17      unknown code, forbidden flag or non-zero absent number  the byte that the step starts at: 16 i for step i,
 *                                                                   from 0, of a run of steps; 0 for an unknown list
 *   18      bytes left over                                         the first of them
 *
 * The limits are CG_LIMIT faces, corners and positions each, and CG_STEPS steps; the panel file has its own.
 * The first that holds is answered, at its lowest place. step is the step of a list or recipe that was refused, from 1,
 * and 0 outside them, and where they are refused before their first step.
 */
#ifndef CROSSGLIMMER_H
#define CROSSGLIMMER_H

#include <stdbool.h>
#include <stddef.h>
#include <stdint.h>

#ifdef __cplusplus
extern "C" {
#endif

/* The largest number of positions, faces and corners of a mesh. */
#define CG_LIMIT 60000u

typedef struct cg_answer {
    uint32_t number; /* 0 where the call is done, else the number of the table above */
    uint32_t place;  /* of a refusal */
    uint32_t step;   /* of a refusal in a list or recipe, from 1, else 0 */
    uint32_t v;      /* positions of the mesh written */
    uint32_t e;      /* its edges */
    uint32_t f;      /* its faces */
} cg_answer;

/* A number of the table in words. */
static inline const char *cg_meaning(uint32_t number)
{
    switch (number) {
    case 0: return "done";
    case 1: return "offsets or coordinates of wrong shape";
    case 2: return "input over a limit";
    case 3: return "ratio or height not finite";
    case 4: return "coordinate not finite";
    case 5: return "face under three corners";
    case 6: return "vertex number not below the positions";
    case 7: return "vertex twice in one face";
    case 8: return "directed edge met before";
    case 9: return "directed edge without reverse";
    case 10: return "vertex in fewer than three faces";
    case 11: return "faces round a vertex form more than one fan";
    case 12: return "result over a limit";
    case 13: return "result does not fit the lent output";
    case 14: return "result coordinate not finite";
    case 15: return "file ends before an item is whole";
    case 16: return "count of a file over its limit";
    case 17: return "unknown code, forbidden flag or non-zero absent number";
    case 18: return "bytes left over";
    default: return "not a number of the table";
    }
}

/* ---- runs in structs
 *
 * Each call that takes the runs of a mesh has a second form, at the end of this header, that takes them in structs:
 * cg_dual_of(mesh, out) is cg_dual. There a pointer may be null where its length is 0, and arities and numbers may be
 * null where their flag is false.
 */

/* A mesh that is read. */
typedef struct cg_mesh {
    const uint32_t *offsets;
    size_t offsets_length;
    const uint32_t *corners;
    size_t corners_length;
    const float *coords;
    size_t coords_length;
} cg_mesh;

/* Runs that are lent: for a result, or as a work mesh. */
typedef struct cg_room {
    uint32_t *offsets;
    size_t offsets_length;
    uint32_t *corners;
    size_t corners_length;
    float *coords;
    size_t coords_length;
} cg_room;

/* Which faces kis picks: those that each mask allows, as in cg_kis. */
typedef struct cg_picks {
    bool has_arities;
    const uint32_t *arities;
    size_t arities_length;
    bool has_numbers;
    const uint32_t *numbers;
    size_t numbers_length;
    bool regular;
} cg_picks;

/* Which faces kis picks in a list, which takes no face numbers. */
typedef struct cg_masks {
    bool has_arities;
    const uint32_t *arities;
    size_t arities_length;
    bool regular;
} cg_masks;

/* All faces. */
static inline cg_picks cg_pick_all(void)
{
    cg_picks picks = {false, NULL, 0, false, NULL, 0, false};
    return picks;
}

/* No masks, in a list: all faces, in meta those of three corners. */
static inline cg_masks cg_unmasked(void)
{
    cg_masks masks = {false, NULL, 0, false};
    return masks;
}

/* ---- the mesh */

/* Reads a mesh. Numbers 1, 2, 4 to 9; v, e and f are always 0. */
cg_answer cg_check(const uint32_t *offsets, size_t offsets_length,
                   const uint32_t *corners, size_t corners_length,
                   const float *coords, size_t coords_length);

/* Reads a mesh. Numbers 1, 2, 4 to 11: what ambo and dual ask; v, e and f are always 0. */
cg_answer cg_check_full(const uint32_t *offsets, size_t offsets_length,
                        const uint32_t *corners, size_t corners_length,
                        const float *coords, size_t coords_length);

/* Reads a mesh and writes its edges, two numbers each, the smaller first, in the order in which the faces first
 * have them ascending. out has room for out_length PAIRS; corners_length / 2 always do. Numbers 1, 2, 4 to 9, then 13
 * (place 0) where the edges do not fit. e is how many were written; v and f are 0. */
cg_answer cg_edges(const uint32_t *offsets, size_t offsets_length,
                   const uint32_t *corners, size_t corners_length,
                   const float *coords, size_t coords_length,
                   uint32_t (*out)[2], size_t out_length);

/* ---- the operators
 *
 * Each reads a mesh and writes another. A ratio or height is looked at only where its has_ flag is true; a ratio is
 * clamped to 0..1. F, C, E, V below are the faces, corners, edges (C / 2) and positions of the mesh that is read, and
 * "result" is what the out runs must hold: faces (one offset more), corners, positions (three coords each). No result
 * is over CG_LIMIT in any of them, so CG_LIMIT + 1 offsets, CG_LIMIT corners and 3 CG_LIMIT coords always do.
 */

/* Each face in the other order. Result F, C, V.
 * Numbers 1, 2, 4 to 7, 13. */
cg_answer cg_reverse(const uint32_t *offsets, size_t offsets_length,
                     const uint32_t *corners, size_t corners_length,
                     const float *coords, size_t coords_length,
                     uint32_t *out_offsets, size_t out_offsets_length,
                     uint32_t *out_corners, size_t out_corners_length,
                     float *out_coords, size_t out_coords_length);

/* Each face in the other order, and y of each position turned round. Result F, C, V.
 * Numbers 1, 2, 4 to 7, 13. */
cg_answer cg_reflect(const uint32_t *offsets, size_t offsets_length,
                     const uint32_t *corners, size_t corners_length,
                     const float *coords, size_t coords_length,
                     uint32_t *out_offsets, size_t out_offsets_length,
                     uint32_t *out_corners, size_t out_corners_length,
                     float *out_coords, size_t out_coords_length);

/* Triangles on the same positions: four corners by the shorter diagonal (shorter true) or the longer, five in a
 * fixed way, others a fan from their first corner. Result C - 2 F, three times that, V.
 * Numbers 1, 2, 4 to 7, 12, 13. */
cg_answer cg_triangulate(const uint32_t *offsets, size_t offsets_length,
                         const uint32_t *corners, size_t corners_length,
                         const float *coords, size_t coords_length,
                         bool shorter,
                         uint32_t *out_offsets, size_t out_offsets_length,
                         uint32_t *out_corners, size_t out_corners_length,
                         float *out_coords, size_t out_coords_length);

/* A vertex an edge [a, b], at ratio a + (1 - ratio) b (absent: 1/2); a face a face, then a face a vertex.
 * Result F + V, 2 C, E.
 * Numbers 1 to 14. */
cg_answer cg_ambo(const uint32_t *offsets, size_t offsets_length,
                  const uint32_t *corners, size_t corners_length,
                  const float *coords, size_t coords_length,
                  bool has_ratio, float ratio,
                  uint32_t *out_offsets, size_t out_offsets_length,
                  uint32_t *out_corners, size_t out_corners_length,
                  float *out_coords, size_t out_coords_length);

/* A vertex a face, at its centroid; a face a vertex. Result V, C, F.
 * Numbers 1, 2, 4 to 11, 13, 14. */
cg_answer cg_dual(const uint32_t *offsets, size_t offsets_length,
                  const uint32_t *corners, size_t corners_length,
                  const float *coords, size_t coords_length,
                  uint32_t *out_offsets, size_t out_offsets_length,
                  uint32_t *out_corners, size_t out_corners_length,
                  float *out_coords, size_t out_coords_length);

/* An apex over each picked face, at centroid + normal height (absent: 0), and triangles to it; a face that is not
 * picked as it is. A face is picked when each mask allows it: arities (has_arities), how many corners it may have;
 * numbers (has_numbers), which faces, those past the end ignored; regular, sides of nearly one length. A mask that is
 * not given allows all, an empty list none; a list whose flag is false is not read, but its pointer must not be null.
 * Result, with P picked faces of Q corners in all: F - P + Q, C + 2 Q, V + P. Whichever faces are picked, that is at
 * most C, 3 C, V + F (a face that is not picked has three corners or more, and stays one face), so C + 1 offsets, 3 C
 * corners and 3 (V + F) coords always do.
 * Numbers 1 to 9, 12 to 14. */
cg_answer cg_kis(const uint32_t *offsets, size_t offsets_length,
                 const uint32_t *corners, size_t corners_length,
                 const float *coords, size_t coords_length,
                 bool has_height, float height,
                 bool has_arities, const uint32_t *arities, size_t arities_length,
                 bool has_numbers, const uint32_t *numbers, size_t numbers_length,
                 bool regular,
                 uint32_t *out_offsets, size_t out_offsets_length,
                 uint32_t *out_corners, size_t out_corners_length,
                 float *out_coords, size_t out_coords_length);

/* A vertex a corner, at p + ratio (centroid - p) (absent: 1/2), and the old positions times 1.5 ratio; inner faces,
 * then a hexagon an edge. Result F + E, C + 6 E, V + C.
 * Numbers 1 to 9, 12 to 14. */
cg_answer cg_chamfer(const uint32_t *offsets, size_t offsets_length,
                     const uint32_t *corners, size_t corners_length,
                     const float *coords, size_t coords_length,
                     bool has_ratio, float ratio,
                     uint32_t *out_offsets, size_t out_offsets_length,
                     uint32_t *out_corners, size_t out_corners_length,
                     float *out_coords, size_t out_coords_length);

/* A vertex a face, at its normalized centroid + normal height (absent: 0), then two an edge (ratio absent: 1/3);
 * a pentagon a corner. Result C, 5 C, V + F + C.
 * Numbers 1 to 9, 12 to 14. */
cg_answer cg_gyro(const uint32_t *offsets, size_t offsets_length,
                  const uint32_t *corners, size_t corners_length,
                  const float *coords, size_t coords_length,
                  bool has_ratio, float ratio,
                  bool has_height, float height,
                  uint32_t *out_offsets, size_t out_offsets_length,
                  uint32_t *out_corners, size_t out_corners_length,
                  float *out_coords, size_t out_coords_length);

/* Two vertices an edge (ratio absent: 1/3); inner faces, then a quadrilateral a corner.
 * Result F + C, 5 C, V + C.
 * Numbers 1 to 9, 12 to 14. */
cg_answer cg_propellor(const uint32_t *offsets, size_t offsets_length,
                       const uint32_t *corners, size_t corners_length,
                       const float *coords, size_t coords_length,
                       bool has_ratio, float ratio,
                       uint32_t *out_offsets, size_t out_offsets_length,
                       uint32_t *out_corners, size_t out_corners_length,
                       float *out_coords, size_t out_coords_length);

/* A vertex a corner, then two an edge (ratio absent: 1/3, height 0); a hexagon a corner, then inner faces.
 * Result F + C, 7 C, V + 2 C.
 * Numbers 1 to 9, 12 to 14. */
cg_answer cg_whirl(const uint32_t *offsets, size_t offsets_length,
                   const uint32_t *corners, size_t corners_length,
                   const float *coords, size_t coords_length,
                   bool has_ratio, float ratio,
                   bool has_height, float height,
                   uint32_t *out_offsets, size_t out_offsets_length,
                   uint32_t *out_corners, size_t out_corners_length,
                   float *out_coords, size_t out_coords_length);

/* A vertex an edge, at height (a + b) (absent: 0.5, below zero: 0), then one a corner; inner faces, then a pentagon
 * a corner. Result F + C, 6 C, V + E + C.
 * Numbers 1 to 9, 12 to 14. */
cg_answer cg_quinto(const uint32_t *offsets, size_t offsets_length,
                    const uint32_t *corners, size_t corners_length,
                    const float *coords, size_t coords_length,
                    bool has_height, float height,
                    uint32_t *out_offsets, size_t out_offsets_length,
                    uint32_t *out_corners, size_t out_corners_length,
                    float *out_coords, size_t out_coords_length);

/* ---- the lists
 *
 * Several operators one after the other, each through the whole table before the next is looked at. A list is lent two
 * WORK MESHES: step 1 writes the first, step 2 the second, in turn, and the last step the out runs. Whatever came of
 * the call, EVERY element of both reads 0 afterwards. A work mesh that does not hold its step's result is 13 in that
 * step.
 *
 * How much room always does: CG_LIMIT + 1 offsets, CG_LIMIT corners and 3 CG_LIMIT coords for each work mesh and for
 * the output; then 13 cannot come.
 */

enum cg_list_code {
    CG_BEVEL = 1,    /* ambo, dual, kis, dual */
    CG_EXPAND = 2,   /* ambo, ambo */
    CG_JOIN = 3,     /* dual, ambo, dual */
    CG_MEDIAL = 4,   /* ambo, dual, kis, dual, dual */
    CG_META = 5,     /* dual, ambo, dual, kis; where no arities are given kis takes the arity 3 */
    CG_NEEDLE = 6,   /* dual, kis, dual, dual */
    CG_ORTHO = 7,    /* dual, ambo, dual, dual, ambo, dual */
    CG_SNUB = 8,     /* dual, gyro, dual */
    CG_TRUNCATE = 9, /* dual, kis, dual */
    CG_ZIP = 10      /* kis, dual */
};

/* Reads a mesh and writes what the list of this code makes of it. The ratio goes to each ambo and to gyro, the height
 * to kis and gyro, arities and regular to kis, as in cg_kis; what the list's operators do not take is not looked at.
 * Numbers 1 to 14, with their step; 17 (place 0, step 0) where no list has the code. */
cg_answer cg_list(uint32_t code,
                  const uint32_t *offsets, size_t offsets_length,
                  const uint32_t *corners, size_t corners_length,
                  const float *coords, size_t coords_length,
                  bool has_ratio, float ratio,
                  bool has_height, float height,
                  bool has_arities, const uint32_t *arities, size_t arities_length,
                  bool regular,
                  uint32_t *first_offsets, size_t first_offsets_length,
                  uint32_t *first_corners, size_t first_corners_length,
                  float *first_coords, size_t first_coords_length,
                  uint32_t *second_offsets, size_t second_offsets_length,
                  uint32_t *second_corners, size_t second_corners_length,
                  float *second_coords, size_t second_coords_length,
                  uint32_t *out_offsets, size_t out_offsets_length,
                  uint32_t *out_corners, size_t out_corners_length,
                  float *out_coords, size_t out_coords_length);

/* ---- recipes */

enum cg_step_code {
    CG_AMBO = 1,
    CG_CHAMFER = 2,
    CG_DUAL = 3,
    CG_GYRO = 4,
    CG_KIS = 5,
    CG_PROPELLOR = 6,
    CG_QUINTO = 7,
    CG_REFLECT = 8,
    CG_REVERSE = 9,
    CG_WHIRL = 10,
    CG_TRIANGULATE = 11
};

enum cg_step_flag {
    CG_RATIO = 1, /* the ratio is present: ambo, chamfer, gyro, propellor, whirl */
    CG_HEIGHT = 2 /* the height is present: gyro, kis, quinto, whirl */
};

/* The most steps of a recipe. */
#define CG_STEPS 16u

/* A step of a recipe. A number whose flag is not set must be 0 (not -0). */
typedef struct cg_step {
    uint32_t code;  /* of cg_step_code */
    uint32_t flags; /* of cg_step_flag, added */
    float ratio;
    float height;
} cg_step;

/* Reads steps and a mesh, and runs the steps one after the other; kis picks all faces, triangulate takes the shorter
 * diagonals. Work meshes as in a list: every element reads 0 afterwards. steps_length is how many STEPS there are,
 * ledger_length how many NUMBERS the ledger has, four a step. Each finished step writes its four: its code, and the
 * positions, edges and faces of its result. On a refusal the finished steps' stay; the rest of the ledger is as it was.
 * Room that always does is a list's, and 4 CG_STEPS numbers for the ledger; then 13 cannot come.
 * Before step 1, with step 0: 2 (place 3) over 16 steps; 17 (place 16 i) where step i, from 0, is none; 13 (place 3)
 * where the ledger has no room for all steps. Then numbers 1 to 14, with their step.
 * Without steps: numbers 1, 2, 4 to 7 and 13, with step 0, then a copy. */
cg_answer cg_recipe(const cg_step *steps, size_t steps_length,
                    uint32_t *ledger, size_t ledger_length,
                    const uint32_t *offsets, size_t offsets_length,
                    const uint32_t *corners, size_t corners_length,
                    const float *coords, size_t coords_length,
                    uint32_t *first_offsets, size_t first_offsets_length,
                    uint32_t *first_corners, size_t first_corners_length,
                    float *first_coords, size_t first_coords_length,
                    uint32_t *second_offsets, size_t second_offsets_length,
                    uint32_t *second_corners, size_t second_corners_length,
                    float *second_coords, size_t second_coords_length,
                    uint32_t *out_offsets, size_t out_offsets_length,
                    uint32_t *out_corners, size_t out_corners_length,
                    float *out_coords, size_t out_coords_length);

/* ---- the panel file
 *
 * Little endian words of 32 bits: how many steps, each as in cg_step; how many positions, three floats each; how many
 * faces, each how many corners and these. At most 16 steps, 400 positions, 400 faces and 1,200 corners.
 */

/* What a file holds, or why it is refused; the last four are then 0. */
typedef struct cg_filing {
    uint32_t number;    /* 0 where the file was read, else the number of the table at the top */
    uint32_t place;     /* of a refusal */
    uint32_t steps;
    uint32_t positions;
    uint32_t faces;
    uint32_t corners;
} cg_filing;

/* What was written. */
typedef struct cg_writing {
    uint32_t number; /* 0 where the file was written, else the number of the table at the top */
    uint32_t place;  /* of a refusal */
    uint32_t bytes;  /* of the file; 0 where it is refused */
} cg_writing;

/* Reads a file and writes its mesh at the front of the out runs; what lies past it is as it was, and so is every
 * element where the file is refused. The mesh is not checked: whatever is called with it does that.
 * Numbers 15 to 18, then 13 (places 0 to 2). */
cg_filing cg_panel_read(const uint8_t *bytes, size_t bytes_length,
                        uint32_t *out_offsets, size_t out_offsets_length,
                        uint32_t *out_corners, size_t out_corners_length,
                        float *out_coords, size_t out_coords_length);

/* Reads a file and writes its steps at the front of out, which has room for out_length STEPS; what lies past them is as
 * it was, and so is every step where the file is refused.
 * Numbers 15 to 18, then 13 (place 3). */
cg_filing cg_panel_steps(const uint8_t *bytes, size_t bytes_length,
                         cg_step *out, size_t out_length);

/* Reads steps and a mesh, of which only the shape is checked, and writes them as a file at the front of out; what lies
 * past it is as it was, and so is every byte where the call is refused. Which NaN a NaN is, its payload and sign, is
 * not kept: each is written as 0x7FC00000. Every other number is written with its own bits.
 * Numbers 17 (place 16 i) where step i, from 0, of at most 16 is none; 1; 2 over a limit of the file (place 3 steps,
 * then 0 faces, 1 corners, 2 positions); 13 (place 0) where the bytes do not fit. */
cg_writing cg_panel_write(const cg_step *steps, size_t steps_length,
                          const uint32_t *offsets, size_t offsets_length,
                          const uint32_t *corners, size_t corners_length,
                          const float *coords, size_t coords_length,
                          uint8_t *out, size_t out_length);

/* ---- the calls over structs */

/* The runs of a struct as the calls take them. */
#define CG_RUNS(m) (m).offsets, (m).offsets_length, (m).corners, (m).corners_length, (m).coords, (m).coords_length

/* The same, with a pointer that is not null where a length is 0. */
static inline cg_mesh cg_aimed_mesh(cg_mesh mesh)
{
    static const uint32_t number = 0;
    static const float coordinate = 0;
    mesh.offsets = mesh.offsets_length > 0 ? mesh.offsets : &number;
    mesh.corners = mesh.corners_length > 0 ? mesh.corners : &number;
    mesh.coords = mesh.coords_length > 0 ? mesh.coords : &coordinate;
    return mesh;
}

static inline cg_room cg_aimed_room(cg_room room)
{
    static uint32_t number;
    static float coordinate;
    room.offsets = room.offsets_length > 0 ? room.offsets : &number;
    room.corners = room.corners_length > 0 ? room.corners : &number;
    room.coords = room.coords_length > 0 ? room.coords : &coordinate;
    return room;
}

static inline cg_answer cg_check_of(cg_mesh mesh)
{
    mesh = cg_aimed_mesh(mesh);
    return cg_check(CG_RUNS(mesh));
}

static inline cg_answer cg_check_full_of(cg_mesh mesh)
{
    mesh = cg_aimed_mesh(mesh);
    return cg_check_full(CG_RUNS(mesh));
}

static inline cg_answer cg_edges_of(cg_mesh mesh, uint32_t (*out)[2], size_t out_length)
{
    uint32_t none[1][2] = {{0, 0}};
    mesh = cg_aimed_mesh(mesh);
    return cg_edges(CG_RUNS(mesh), out_length > 0 ? out : none, out_length);
}

static inline cg_answer cg_reverse_of(cg_mesh mesh, cg_room out)
{
    mesh = cg_aimed_mesh(mesh);
    out = cg_aimed_room(out);
    return cg_reverse(CG_RUNS(mesh), CG_RUNS(out));
}

static inline cg_answer cg_reflect_of(cg_mesh mesh, cg_room out)
{
    mesh = cg_aimed_mesh(mesh);
    out = cg_aimed_room(out);
    return cg_reflect(CG_RUNS(mesh), CG_RUNS(out));
}

static inline cg_answer cg_triangulate_of(cg_mesh mesh, bool shorter, cg_room out)
{
    mesh = cg_aimed_mesh(mesh);
    out = cg_aimed_room(out);
    return cg_triangulate(CG_RUNS(mesh), shorter, CG_RUNS(out));
}

static inline cg_answer cg_ambo_of(cg_mesh mesh, bool has_ratio, float ratio, cg_room out)
{
    mesh = cg_aimed_mesh(mesh);
    out = cg_aimed_room(out);
    return cg_ambo(CG_RUNS(mesh), has_ratio, ratio, CG_RUNS(out));
}

static inline cg_answer cg_dual_of(cg_mesh mesh, cg_room out)
{
    mesh = cg_aimed_mesh(mesh);
    out = cg_aimed_room(out);
    return cg_dual(CG_RUNS(mesh), CG_RUNS(out));
}

static inline cg_answer cg_kis_of(cg_mesh mesh, bool has_height, float height, cg_picks picks, cg_room out)
{
    const uint32_t none = 0;
    const size_t arities_length = picks.has_arities ? picks.arities_length : 0;
    const size_t numbers_length = picks.has_numbers ? picks.numbers_length : 0;
    mesh = cg_aimed_mesh(mesh);
    out = cg_aimed_room(out);
    return cg_kis(CG_RUNS(mesh), has_height, height, picks.has_arities, arities_length > 0 ? picks.arities : &none,
                  arities_length, picks.has_numbers, numbers_length > 0 ? picks.numbers : &none, numbers_length,
                  picks.regular, CG_RUNS(out));
}

static inline cg_answer cg_chamfer_of(cg_mesh mesh, bool has_ratio, float ratio, cg_room out)
{
    mesh = cg_aimed_mesh(mesh);
    out = cg_aimed_room(out);
    return cg_chamfer(CG_RUNS(mesh), has_ratio, ratio, CG_RUNS(out));
}

static inline cg_answer cg_gyro_of(cg_mesh mesh, bool has_ratio, float ratio, bool has_height, float height,
                                   cg_room out)
{
    mesh = cg_aimed_mesh(mesh);
    out = cg_aimed_room(out);
    return cg_gyro(CG_RUNS(mesh), has_ratio, ratio, has_height, height, CG_RUNS(out));
}

static inline cg_answer cg_propellor_of(cg_mesh mesh, bool has_ratio, float ratio, cg_room out)
{
    mesh = cg_aimed_mesh(mesh);
    out = cg_aimed_room(out);
    return cg_propellor(CG_RUNS(mesh), has_ratio, ratio, CG_RUNS(out));
}

static inline cg_answer cg_whirl_of(cg_mesh mesh, bool has_ratio, float ratio, bool has_height, float height,
                                    cg_room out)
{
    mesh = cg_aimed_mesh(mesh);
    out = cg_aimed_room(out);
    return cg_whirl(CG_RUNS(mesh), has_ratio, ratio, has_height, height, CG_RUNS(out));
}

static inline cg_answer cg_quinto_of(cg_mesh mesh, bool has_height, float height, cg_room out)
{
    mesh = cg_aimed_mesh(mesh);
    out = cg_aimed_room(out);
    return cg_quinto(CG_RUNS(mesh), has_height, height, CG_RUNS(out));
}

static inline cg_answer cg_list_of(uint32_t code, cg_mesh mesh, bool has_ratio, float ratio, bool has_height,
                                   float height, cg_masks masks, cg_room first, cg_room second, cg_room out)
{
    const uint32_t none = 0;
    const size_t arities_length = masks.has_arities ? masks.arities_length : 0;
    mesh = cg_aimed_mesh(mesh);
    first = cg_aimed_room(first);
    second = cg_aimed_room(second);
    out = cg_aimed_room(out);
    return cg_list(code, CG_RUNS(mesh), has_ratio, ratio, has_height, height, masks.has_arities,
                   arities_length > 0 ? masks.arities : &none, arities_length, masks.regular, CG_RUNS(first),
                   CG_RUNS(second), CG_RUNS(out));
}

static inline cg_answer cg_recipe_of(const cg_step *steps, size_t steps_length, uint32_t *ledger, size_t ledger_length,
                                     cg_mesh mesh, cg_room first, cg_room second, cg_room out)
{
    const cg_step no_step = {0, 0, 0, 0};
    uint32_t no_number = 0;
    mesh = cg_aimed_mesh(mesh);
    first = cg_aimed_room(first);
    second = cg_aimed_room(second);
    out = cg_aimed_room(out);
    return cg_recipe(steps_length > 0 ? steps : &no_step, steps_length, ledger_length > 0 ? ledger : &no_number,
                     ledger_length, CG_RUNS(mesh), CG_RUNS(first), CG_RUNS(second), CG_RUNS(out));
}

static inline cg_filing cg_panel_read_of(const uint8_t *bytes, size_t bytes_length, cg_room out)
{
    const uint8_t none = 0;
    out = cg_aimed_room(out);
    return cg_panel_read(bytes_length > 0 ? bytes : &none, bytes_length, CG_RUNS(out));
}

static inline cg_writing cg_panel_write_of(const cg_step *steps, size_t steps_length, cg_mesh mesh, uint8_t *out,
                                           size_t out_length)
{
    const cg_step no_step = {0, 0, 0, 0};
    uint8_t no_byte = 0;
    mesh = cg_aimed_mesh(mesh);
    return cg_panel_write(steps_length > 0 ? steps : &no_step, steps_length, CG_RUNS(mesh),
                          out_length > 0 ? out : &no_byte, out_length);
}

#undef CG_RUNS

/* ---- the lists by name
 *
 * cg_list_of with just the numbers that each list takes.
 */

static inline cg_answer cg_bevel(cg_mesh mesh, bool has_ratio, float ratio, bool has_height, float height,
                                 cg_masks masks, cg_room first, cg_room second, cg_room out)
{
    return cg_list_of(CG_BEVEL, mesh, has_ratio, ratio, has_height, height, masks, first, second, out);
}

static inline cg_answer cg_expand(cg_mesh mesh, bool has_ratio, float ratio, cg_room first, cg_room second, cg_room out)
{
    return cg_list_of(CG_EXPAND, mesh, has_ratio, ratio, false, 0, cg_unmasked(), first, second, out);
}

static inline cg_answer cg_join(cg_mesh mesh, bool has_ratio, float ratio, cg_room first, cg_room second, cg_room out)
{
    return cg_list_of(CG_JOIN, mesh, has_ratio, ratio, false, 0, cg_unmasked(), first, second, out);
}

static inline cg_answer cg_medial(cg_mesh mesh, bool has_ratio, float ratio, bool has_height, float height,
                                  cg_masks masks, cg_room first, cg_room second, cg_room out)
{
    return cg_list_of(CG_MEDIAL, mesh, has_ratio, ratio, has_height, height, masks, first, second, out);
}

static inline cg_answer cg_meta(cg_mesh mesh, bool has_ratio, float ratio, bool has_height, float height,
                                cg_masks masks, cg_room first, cg_room second, cg_room out)
{
    return cg_list_of(CG_META, mesh, has_ratio, ratio, has_height, height, masks, first, second, out);
}

static inline cg_answer cg_needle(cg_mesh mesh, bool has_height, float height, cg_masks masks, cg_room first,
                                  cg_room second, cg_room out)
{
    return cg_list_of(CG_NEEDLE, mesh, false, 0, has_height, height, masks, first, second, out);
}

static inline cg_answer cg_ortho(cg_mesh mesh, bool has_ratio, float ratio, cg_room first, cg_room second, cg_room out)
{
    return cg_list_of(CG_ORTHO, mesh, has_ratio, ratio, false, 0, cg_unmasked(), first, second, out);
}

static inline cg_answer cg_snub(cg_mesh mesh, bool has_ratio, float ratio, bool has_height, float height, cg_room first,
                                cg_room second, cg_room out)
{
    return cg_list_of(CG_SNUB, mesh, has_ratio, ratio, has_height, height, cg_unmasked(), first, second, out);
}

static inline cg_answer cg_truncate(cg_mesh mesh, bool has_height, float height, cg_masks masks, cg_room first,
                                    cg_room second, cg_room out)
{
    return cg_list_of(CG_TRUNCATE, mesh, false, 0, has_height, height, masks, first, second, out);
}

static inline cg_answer cg_zip(cg_mesh mesh, bool has_height, float height, cg_masks masks, cg_room first,
                               cg_room second, cg_room out)
{
    return cg_list_of(CG_ZIP, mesh, false, 0, has_height, height, masks, first, second, out);
}

#ifdef __cplusplus
}
#endif

#endif
