/* gyro and dual by hand in linear time, with memory of their own and no table of refusals: about as fast as they can be.
 * They take a closed mesh within the limits and answer whether each edge had its reverse. */
#include "../include/crossglimmer.h"
#include <math.h>
#include <string.h>

#define MOST CG_LIMIT
#define TABLE (1u << 17)
#define NONE UINT32_MAX

static uint32_t face_of[MOST], next_of[MOST], prev_of[MOST], mate_of[MOST], dir_of[MOST], lowest[MOST];
static uint32_t table[TABLE];

typedef struct point { float x, y, z; } point;

static point at(const float *coords, uint32_t v) { return (point){coords[3 * v], coords[3 * v + 1], coords[3 * v + 2]}; }
static point plus(point a, point b) { return (point){a.x + b.x, a.y + b.y, a.z + b.z}; }
static point minus(point a, point b) { return (point){a.x - b.x, a.y - b.y, a.z - b.z}; }
static point times(point a, float t) { return (point){a.x * t, a.y * t, a.z * t}; }
static point over(point a, float t) { return (point){a.x / t, a.y / t, a.z / t}; }
static float dot(point a, point b) { return (a.x * b.x + a.y * b.y) + a.z * b.z; }
static point cross(point a, point b) { return (point){a.y * b.z - a.z * b.y, a.z * b.x - a.x * b.z, a.x * b.y - a.y * b.x}; }
static float *put(float *out, point p) { *out++ = p.x; *out++ = p.y; *out++ = p.z; return out; }

static uint32_t hashed(uint32_t a, uint32_t b)
{
    uint64_t key = ((uint64_t)a << 32 | b) * 0x9E3779B97F4A7C15u;
    return (uint32_t)(key >> 47);
}

/* Faces, neighbours round a face, and mates by a table of directed edges. */
static bool link(const uint32_t *offsets, uint32_t faces, const uint32_t *corners, uint32_t n)
{
    memset(table, 0xff, sizeof table);
    for (uint32_t f = 0; f < faces; f++)
        for (uint32_t c = offsets[f]; c < offsets[f + 1]; c++) {
            face_of[c] = f;
            next_of[c] = c + 1 < offsets[f + 1] ? c + 1 : offsets[f];
            prev_of[c] = c > offsets[f] ? c - 1 : offsets[f + 1] - 1;
            uint32_t slot = hashed(corners[c], corners[next_of[c]]);
            while (table[slot] != NONE)
                slot = (slot + 1) % TABLE;
            table[slot] = c;
        }
    for (uint32_t c = 0; c < n; c++) {
        uint32_t a = corners[next_of[c]], b = corners[c], slot = hashed(a, b);
        while (table[slot] != NONE && (corners[table[slot]] != a || corners[next_of[table[slot]]] != b))
            slot = (slot + 1) % TABLE;
        if (table[slot] == NONE)
            return false;
        mate_of[c] = table[slot];
    }
    return true;
}

static point centroid(const uint32_t *run, uint32_t arity, const float *coords)
{
    point sum = {0, 0, 0};
    for (uint32_t i = 0; i < arity; i++)
        sum = plus(sum, at(coords, run[i]));
    return over(sum, (float)arity);
}

static point normal(const uint32_t *run, uint32_t arity, const float *coords)
{
    point sum = {0, 0, 0};
    uint32_t considered = 0;
    for (uint32_t i = 0; i < arity; i++) {
        point p = at(coords, run[i]), q = at(coords, run[(i + 1) % arity]), r = at(coords, run[(i + 2) % arity]);
        point o = cross(minus(q, p), minus(r, q));
        float square = dot(o, o);
        if (square < 0.00000001f)
            continue;
        considered++;
        sum = minus(sum, over(o, sqrtf(square)));
    }
    if (considered > 0)
        return over(sum, (float)considered);
    point c = centroid(run, arity, coords);
    return over(c, sqrtf(dot(c, c)));
}

/* gyro with no numbers: ratio 1/3, height 0. */
bool limit_gyro(cg_mesh mesh, cg_room room)
{
    const uint32_t *offsets = mesh.offsets, *corners = mesh.corners;
    const float *coords = mesh.coords;
    uint32_t faces = (uint32_t)mesh.offsets_length - 1, n = (uint32_t)mesh.corners_length;
    uint32_t v = (uint32_t)mesh.coords_length / 3, new_edge = v + faces;
    if (!link(offsets, faces, corners, n))
        return false;
    memcpy(room.coords, coords, mesh.coords_length * sizeof *coords);
    float *out = room.coords + mesh.coords_length;
    for (uint32_t f = 0; f < faces; f++) {
        const uint32_t *run = corners + offsets[f];
        uint32_t arity = offsets[f + 1] - offsets[f];
        point c = centroid(run, arity, coords);
        out = put(out, plus(over(c, sqrtf(dot(c, c))), times(normal(run, arity, coords), 0.0f)));
    }
    for (uint32_t c = 0; c < n; c++) {
        point a = at(coords, corners[c]), b = at(coords, corners[next_of[c]]);
        if (corners[c] > corners[next_of[c]])
            continue;
        dir_of[c] = new_edge++;
        dir_of[mate_of[c]] = new_edge++;
        out = put(out, plus(a, times(minus(b, a), 1.0f / 3.0f)));
        out = put(out, plus(b, times(minus(a, b), 1.0f / 3.0f)));
    }
    room.offsets[0] = 0;
    for (uint32_t c = 0; c < n; c++) {
        uint32_t p = prev_of[c], *face = room.corners + 5 * (size_t)c;
        face[0] = corners[c];
        face[1] = dir_of[c];
        face[2] = v + face_of[c];
        face[3] = dir_of[p];
        face[4] = dir_of[mate_of[p]];
        room.offsets[c + 1] = 5 * (c + 1);
    }
    return true;
}

bool limit_dual(cg_mesh mesh, cg_room room)
{
    const uint32_t *offsets = mesh.offsets, *corners = mesh.corners;
    uint32_t faces = (uint32_t)mesh.offsets_length - 1, n = (uint32_t)mesh.corners_length;
    uint32_t v = (uint32_t)mesh.coords_length / 3, made = 0;
    float *out = room.coords;
    if (!link(offsets, faces, corners, n))
        return false;
    for (uint32_t f = 0; f < faces; f++)
        out = put(out, centroid(corners + offsets[f], offsets[f + 1] - offsets[f], mesh.coords));
    memset(lowest, 0xff, sizeof lowest);
    for (uint32_t c = n; c-- > 0;)
        lowest[corners[c]] = c;
    room.offsets[0] = 0;
    for (uint32_t u = 0; u < v; u++) {
        uint32_t c = lowest[u];
        do {
            room.corners[made++] = face_of[c];
            c = mate_of[prev_of[c]];
        } while (c != lowest[u]);
        room.offsets[u + 1] = made;
    }
    return true;
}
