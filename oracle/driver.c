/* Plays calls of the proved library from a file: writes each one's answer and every element that was lent to it.
 *
 * driver [CALLS [ANSWERS]], standard input and output where they are not named. Both are words: u32, little endian.
 *
 * A call is its code, its flags, a ratio and a height (bits), all as in docs/REPLAY.md; then the seven runs that are
 * read, in the order of `read_run`; then how many runs are lent, and these: those of the result, of the first and of
 * the second work mesh, and the ledger; or the edges, the steps or the bytes alone. A run is its length and then its
 * elements, a word each. The codes 43 and 44 are for the steps of a file and for the writing of one.
 *
 * An answer is seven words, number, place, step and four counts, and then the elements of the lent runs. The counts
 * are v, e, f and 0; of a file its steps, positions, faces and corners; of a file that is written its bytes and zeros.
 */
#include "crossglimmer.h"

#include <stdio.h>
#include <stdlib.h>

enum code { CHECK = 24, CHECK_FULL, EDGES, FIRST_LIST = 31, LAST_LIST = 40, RECIPE, FILE_READ, FILE_STEPS, FILE_WRITE };

enum flag { RATIO = 1, HEIGHT = 2, HAS_ARITIES = 4, HAS_NUMBERS = 8, REGULAR = 16, LONGER = 32 };

enum read_run { OFFSETS, CORNERS, COORDS, ARITIES, NUMBERS, STEPS, BYTES, READ_RUNS };

enum { LEDGER = 9, LENT_RUNS = 10 };

/* No call has as long a run. */
#define LONGEST 1000000u

typedef struct run {
    void *elements;
    size_t length;
} run;

typedef struct call {
    uint32_t code, flags;
    float ratio, height;
    run read[READ_RUNS];
    run lent[LENT_RUNS];
    uint32_t lent_runs;
} call;

typedef struct answer {
    uint32_t words[7];
} answer;

static FILE *calls, *answers;

static void stop(const char *why)
{
    fprintf(stderr, "driver: %s\n", why);
    exit(EXIT_FAILURE);
}

/* ---- reading a call */

static void get(void *words, size_t count)
{
    if (fread(words, sizeof(uint32_t), count, calls) != count)
        stop("the calls break off");
}

static uint32_t get_word(void)
{
    uint32_t word;
    get(&word, 1);
    return word;
}

static float get_float(void)
{
    float number;
    get(&number, 1);
    return number;
}

/* An empty run has a pointer too. */
static run get_run(void)
{
    run r;
    r.length = get_word();
    if (r.length > LONGEST)
        stop("a run is too long");
    r.elements = malloc((r.length + 1) * sizeof(uint32_t));
    if (r.elements == NULL)
        stop("there is no memory for a run");
    get(r.elements, r.length);
    return r;
}

/* Whether there is a call; a run that it does not lend is empty. */
static bool get_call(call *c)
{
    static uint32_t none;
    size_t i, bytes = fread(&c->code, 1, sizeof c->code, calls);
    if (bytes == 0 && feof(calls))
        return false;
    if (bytes < sizeof c->code)
        stop("the calls break off");
    c->flags = get_word();
    c->ratio = get_float();
    c->height = get_float();
    for (i = 0; i < READ_RUNS; i++)
        c->read[i] = get_run();
    c->lent_runs = get_word();
    if (c->lent_runs > LENT_RUNS)
        stop("too many runs are lent");
    for (i = 0; i < c->lent_runs; i++)
        c->lent[i] = get_run();
    for (; i < LENT_RUNS; i++) {
        c->lent[i].elements = &none;
        c->lent[i].length = 0;
    }
    return true;
}

static void free_runs(call *c)
{
    size_t i;
    for (i = 0; i < READ_RUNS; i++)
        free(c->read[i].elements);
    for (i = 0; i < c->lent_runs; i++)
        free(c->lent[i].elements);
}

/* ---- bytes, which come and go a word each */

static void narrow(run r)
{
    const uint32_t *words = r.elements;
    uint8_t *bytes = r.elements;
    size_t i;
    for (i = 0; i < r.length; i++)
        bytes[i] = (uint8_t)words[i];
}

static void widen(run r)
{
    uint32_t *words = r.elements;
    const uint8_t *bytes = r.elements;
    size_t i;
    for (i = r.length; i > 0; i--)
        words[i - 1] = bytes[i - 1];
}

/* ---- the calls */

#define RUN(r) (r).elements, (r).length
#define STEPS_IN(r) (r).elements, (r).length / 4
#define MESH(runs) RUN((runs)[0]), RUN((runs)[1]), RUN((runs)[2])
#define IN MESH(c->read)
#define OUT MESH(c->lent)
#define WORK MESH(c->lent + 3), MESH(c->lent + 6)
#define HAS(flag) ((c->flags & (flag)) != 0)
#define A_RATIO HAS(RATIO), c->ratio
#define A_HEIGHT HAS(HEIGHT), c->height
#define LIST_MASKS HAS(HAS_ARITIES), RUN(c->read[ARITIES])

static cg_answer on_mesh(const call *c)
{
    switch (c->code) {
    case CG_AMBO: return cg_ambo(IN, A_RATIO, OUT);
    case CG_CHAMFER: return cg_chamfer(IN, A_RATIO, OUT);
    case CG_DUAL: return cg_dual(IN, OUT);
    case CG_GYRO: return cg_gyro(IN, A_RATIO, A_HEIGHT, OUT);
    case CG_KIS:
        return cg_kis(IN, A_HEIGHT, LIST_MASKS, HAS(HAS_NUMBERS), RUN(c->read[NUMBERS]), HAS(REGULAR), OUT);
    case CG_PROPELLOR: return cg_propellor(IN, A_RATIO, OUT);
    case CG_QUINTO: return cg_quinto(IN, A_HEIGHT, OUT);
    case CG_REFLECT: return cg_reflect(IN, OUT);
    case CG_REVERSE: return cg_reverse(IN, OUT);
    case CG_WHIRL: return cg_whirl(IN, A_RATIO, A_HEIGHT, OUT);
    case CG_TRIANGULATE: return cg_triangulate(IN, !HAS(LONGER), OUT);
    case CHECK: return cg_check(IN);
    case CHECK_FULL: return cg_check_full(IN);
    case EDGES: return cg_edges(IN, c->lent[0].elements, c->lent[0].length / 2);
    case RECIPE: return cg_recipe(STEPS_IN(c->read[STEPS]), RUN(c->lent[LEDGER]), IN, WORK, OUT);
    }
    if (c->code < FIRST_LIST || c->code > LAST_LIST)
        stop("no function has the code");
    return cg_list(c->code - FIRST_LIST + 1, IN, A_RATIO, A_HEIGHT, LIST_MASKS, HAS(REGULAR), WORK, OUT);
}

static answer answer_of(cg_answer a)
{
    answer given = {{a.number, a.place, a.step, a.v, a.e, a.f, 0}};
    return given;
}

static answer filing_of(cg_filing a)
{
    answer given = {{a.number, a.place, 0, a.steps, a.positions, a.faces, a.corners}};
    return given;
}

static answer write_file(const call *c)
{
    cg_writing a;
    answer given = {{0}};
    narrow(c->lent[0]);
    a = cg_panel_write(STEPS_IN(c->read[STEPS]), IN, RUN(c->lent[0]));
    widen(c->lent[0]);
    given.words[0] = a.number;
    given.words[1] = a.place;
    given.words[3] = a.bytes;
    return given;
}

static answer carry_out(const call *c)
{
    narrow(c->read[BYTES]);
    switch (c->code) {
    case FILE_READ: return filing_of(cg_panel_read(RUN(c->read[BYTES]), OUT));
    case FILE_STEPS: return filing_of(cg_panel_steps(RUN(c->read[BYTES]), STEPS_IN(c->lent[0])));
    case FILE_WRITE: return write_file(c);
    default: return answer_of(on_mesh(c));
    }
}

/* ---- writing an answer */

static void put(const void *words, size_t count)
{
    if (fwrite(words, sizeof(uint32_t), count, answers) != count)
        stop("the answers cannot be written");
}

static void put_answer(const answer *given, const call *c)
{
    size_t i;
    put(given->words, sizeof given->words / sizeof *given->words);
    for (i = 0; i < c->lent_runs; i++)
        put(RUN(c->lent[i]));
}

int main(int argc, char **argv)
{
    call c;
    calls = argc > 1 ? fopen(argv[1], "rb") : stdin;
    if (calls == NULL)
        stop("the calls cannot be read");
    answers = argc > 2 ? fopen(argv[2], "wb") : stdout;
    if (answers == NULL)
        stop("the answers cannot be written");
    while (get_call(&c)) {
        answer given = carry_out(&c);
        put_answer(&given, &c);
        free_runs(&c);
    }
    if (fclose(answers) != 0)
        stop("the answers cannot be written");
    return EXIT_SUCCESS;
}
