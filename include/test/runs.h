/* Tests lists and recipes: done, against their steps called one by one, and with each number that they can answer. */

static mesh first, second; /* the work meshes */
static mesh stages[2];     /* what the steps called one by one write, in turn */

static cg_step step(uint32_t code, uint32_t flags, float ratio, float height)
{
    cg_step s;
    s.code = code;
    s.flags = flags;
    s.ratio = ratio;
    s.height = height;
    return s;
}

static cg_step plain(uint32_t code) { return step(code, 0, 0, 0); }

static extras extras_of(cg_step s, cg_masks masks)
{
    extras x;
    x.has_ratio = (s.flags & CG_RATIO) != 0;
    x.has_height = (s.flags & CG_HEIGHT) != 0;
    x.ratio = s.ratio;
    x.height = s.height;
    x.masks = masks;
    return x;
}

/* ---- what a list or recipe is to come to */

typedef struct expected {
    cg_answer answer;
    size_t finished;      /* steps */
    uint32_t rows[16][4]; /* of the ledger */
    size_t sizes[16][3];  /* offsets, corners and coords of each step's result */
    const mesh *result;
} expected;

/* The steps called one by one on the mesh that is read. */
static expected follow(const cg_step *steps, size_t n, cg_masks masks)
{
    expected e;
    memset(&e, 0, sizeof e);
    e.result = &in;
    for (; e.finished < n; e.finished++) {
        size_t i = e.finished;
        mesh *to = &stages[i % 2];
        to->offsets_length = to->corners_length = 60100;
        to->coords_length = 180300;
        e.answer = perform(steps[i].code, e.result, extras_of(steps[i], masks), to);
        e.answer.step = e.answer.number == 0 ? 0 : (uint32_t)i + 1;
        if (e.answer.number != 0)
            return e;
        e.rows[i][0] = steps[i].code;
        e.rows[i][1] = e.answer.v;
        e.rows[i][2] = e.answer.e;
        e.rows[i][3] = e.answer.f;
        e.sizes[i][0] = to->offsets_length = e.answer.f + 1;
        e.sizes[i][1] = to->corners_length = to->offsets[e.answer.f];
        e.sizes[i][2] = to->coords_length = 3 * (size_t)e.answer.v;
        e.result = to;
    }
    return e;
}

static expected refusal(uint32_t number, uint32_t place, uint32_t at)
{
    expected e;
    memset(&e, 0, sizeof e);
    e.answer.number = number;
    e.answer.place = place;
    e.answer.step = at;
    return e;
}

static void lend_all(void)
{
    fill();
    lend(&first, 1000, 1000, 3000);
    lend(&second, 1000, 1000, 3000);
}

/* Whether every lent element reads zero and those past them are as they were. */
static bool wiped(const mesh *m)
{
    size_t i;
    for (i = 0; i < m->offsets_length; i++)
        if (m->offsets[i] != 0)
            return false;
    for (i = 0; i < m->corners_length; i++)
        if (m->corners[i] != 0)
            return false;
    for (i = 0; i < m->coords_length; i++)
        if (m->coords[i] != 0)
            return false;
    return untouched(m, m->offsets_length, m->corners_length, m->coords_length);
}

/* Whether the out runs start with this mesh and are as they were past it. */
static bool written(const mesh *m)
{
    return memcmp(out.offsets, m->offsets, m->offsets_length * sizeof *m->offsets) == 0
        && memcmp(out.corners, m->corners, m->corners_length * sizeof *m->corners) == 0
        && memcmp(out.coords, m->coords, m->coords_length * sizeof *m->coords) == 0
        && untouched(&out, m->offsets_length, m->corners_length, m->coords_length);
}

static void expect_run(const char *name, const expected *e, cg_answer a)
{
    bool good = memcmp(&a, &e->answer, sizeof a) == 0 && wiped(&first) && wiped(&second);
    expect(name, good && (a.number == 0 ? written(e->result) : untouched(&out, 0, 0, 0)), a);
}

/* ---- 13 in each step, at each place */

/* Makes the run that a step writes one element too short; hands back the step that this refuses. */
static uint32_t shorten(const expected *e, size_t n, size_t i, size_t place)
{
    mesh *m = i + 1 == n ? &out : i % 2 == 0 ? &first : &second;
    size_t least = e->sizes[i][place] - 1, j = i + 1 == n ? i : i % 2;
    if (place == 0)
        m->offsets_length = least;
    else if (place == 1)
        m->corners_length = least;
    else
        m->coords_length = least;
    while (j < i && e->sizes[j][place] <= least)
        j += 2;
    return (uint32_t)j + 1;
}

/* ---- the lists */

typedef struct list {
    const char *name;
    cg_answer (*call)(extras);
    uint32_t code, ratio, height; /* the last two: the first step that takes one, or 0 */
    bool masks;
    size_t length;
    uint32_t steps[6];
} list;

#define ROOMS room(&first), room(&second), room(&out)

static cg_answer do_bevel(extras x) { return cg_bevel(whole(&in), RATIO, HEIGHT, x.masks, ROOMS); }
static cg_answer do_expand(extras x) { return cg_expand(whole(&in), RATIO, ROOMS); }
static cg_answer do_join(extras x) { return cg_join(whole(&in), RATIO, ROOMS); }
static cg_answer do_medial(extras x) { return cg_medial(whole(&in), RATIO, HEIGHT, x.masks, ROOMS); }
static cg_answer do_meta(extras x) { return cg_meta(whole(&in), RATIO, HEIGHT, x.masks, ROOMS); }
static cg_answer do_needle(extras x) { return cg_needle(whole(&in), HEIGHT, x.masks, ROOMS); }
static cg_answer do_ortho(extras x) { return cg_ortho(whole(&in), RATIO, ROOMS); }
static cg_answer do_snub(extras x) { return cg_snub(whole(&in), RATIO, HEIGHT, ROOMS); }
static cg_answer do_truncate(extras x) { return cg_truncate(whole(&in), HEIGHT, x.masks, ROOMS); }
static cg_answer do_zip(extras x) { return cg_zip(whole(&in), HEIGHT, x.masks, ROOMS); }

static const list LISTS[] = {
    {"bevel", do_bevel, CG_BEVEL, 1, 3, true, 4, {CG_AMBO, CG_DUAL, CG_KIS, CG_DUAL}},
    {"expand", do_expand, CG_EXPAND, 1, 0, false, 2, {CG_AMBO, CG_AMBO}},
    {"join", do_join, CG_JOIN, 2, 0, false, 3, {CG_DUAL, CG_AMBO, CG_DUAL}},
    {"medial", do_medial, CG_MEDIAL, 1, 3, true, 5, {CG_AMBO, CG_DUAL, CG_KIS, CG_DUAL, CG_DUAL}},
    {"meta", do_meta, CG_META, 2, 4, true, 4, {CG_DUAL, CG_AMBO, CG_DUAL, CG_KIS}},
    {"needle", do_needle, CG_NEEDLE, 0, 2, true, 4, {CG_DUAL, CG_KIS, CG_DUAL, CG_DUAL}},
    {"ortho", do_ortho, CG_ORTHO, 2, 0, false, 6, {CG_DUAL, CG_AMBO, CG_DUAL, CG_DUAL, CG_AMBO, CG_DUAL}},
    {"snub", do_snub, CG_SNUB, 2, 2, false, 3, {CG_DUAL, CG_GYRO, CG_DUAL}},
    {"truncate", do_truncate, CG_TRUNCATE, 0, 2, true, 3, {CG_DUAL, CG_KIS, CG_DUAL}},
    {"zip", do_zip, CG_ZIP, 0, 1, true, 2, {CG_KIS, CG_DUAL}},
};

enum { LIST_COUNT = sizeof LISTS / sizeof *LISTS };

/* Its steps one by one. */
static expected follow_list(const list *l, extras x)
{
    static const uint32_t three[1] = {3};
    cg_step steps[6];
    cg_masks masks = x.masks;
    size_t i;
    for (i = 0; i < l->length; i++) {
        bool ratio = x.has_ratio && (l->steps[i] == CG_AMBO || l->steps[i] == CG_GYRO);
        bool height = x.has_height && (l->steps[i] == CG_KIS || l->steps[i] == CG_GYRO);
        steps[i] = step(l->steps[i], (ratio ? CG_RATIO : 0) + (height ? CG_HEIGHT : 0), x.ratio, x.height);
    }
    if (l->code == CG_META && !masks.has_arities) {
        masks.has_arities = true;
        masks.arities = three;
        masks.arities_length = 1;
    }
    return follow(steps, l->length, masks);
}

static cg_answer call_list(uint32_t code, extras x)
{
    uint32_t none = 0;
    const uint32_t *arities = x.masks.has_arities ? x.masks.arities : &none;
    if (by_structs)
        return cg_list_of(code, whole(&in), RATIO, HEIGHT, x.masks, ROOMS);
    return cg_list(code, RUNS(&in), RATIO, HEIGHT, x.masks.has_arities, arities, x.masks.arities_length,
                   x.masks.regular, RUNS(&first), RUNS(&second), RUNS(&out));
}

/* By code and by name. */
static expected run_list(const list *l, extras x)
{
    expected e = follow_list(l, x);
    lend_all();
    expect_run(l->name, &e, call_list(l->code, x));
    lend_all();
    expect_run(l->name, &e, l->call(x));
    return e;
}

static void refuse_list(const list *l, extras x, uint32_t number, uint32_t place, uint32_t at)
{
    expected e = run_list(l, x);
    expect(l->name, is(e.answer, number, place, at), e.answer);
}

static void list_done(const list *l)
{
    static const uint32_t arities[2] = {3, 4};
    extras x = {true, true, 0.25f, 0.5f, {false, NULL, 0, false}};
    size_t count;
    tetrahedron(1);
    run_list(l, NONE);
    run_list(l, x);
    x.masks.has_arities = true;
    x.masks.arities = arities;
    for (count = 0; count <= 2; count++) {
        x.masks.arities_length = count;
        run_list(l, x);
    }
    x.masks.regular = true;
    x.ratio = 2;
    run_list(l, x);
}

static void list_numbers(const list *l)
{
    extras x = NONE;
    tetrahedron(1);
    x.ratio = x.height = INFINITY; /* absent: not looked at */
    run_list(l, x);
    x.has_ratio = true;
    if (l->ratio > 0)
        refuse_list(l, x, 3, 0, l->ratio);
    else
        run_list(l, x);
    x.has_ratio = false;
    x.has_height = true;
    if (l->height > 0)
        refuse_list(l, x, 3, 1, l->height);
    else
        run_list(l, x);
}

static void list_faults(const list *l)
{
    size_t i, asked = l->code == CG_ZIP ? TO_9 : TO_11;
    for (i = 0; i < asked; i++) {
        FAULTS[i].mesh();
        refuse_list(l, NONE, FAULTS[i].number, FAULTS[i].place, 1);
    }
    heap(3e38f); /* the first dual, kis or gyro of it is 14 */
    run_list(l, NONE);
}

static void list_room(const list *l)
{
    size_t i, place;
    expected e;
    tetrahedron(1);
    e = follow_list(l, NONE);
    for (i = 0; i < l->length; i++)
        for (place = 0; place < 3; place++) {
            expected short_of;
            lend_all();
            short_of = refusal(13, (uint32_t)place, shorten(&e, l->length, i, place));
            expect_run(l->name, &short_of, call_list(l->code, NONE));
        }
}

/* 10 and 11 after a first step that does not ask them; 12. */
static void list_later(void)
{
    const list *zip = &LISTS[CG_ZIP - 1];
    static const uint32_t none[1] = {0};
    extras x = NONE;
    pinched();
    refuse_list(zip, x, 11, 0, 2);
    with_spares(60000);
    refuse_list(zip, x, 12, 2, 1);
    x.masks.has_arities = true;
    x.masks.arities = none;
    pillow();
    refuse_list(zip, x, 10, 0, 2);
    heap(3e38f);
    refuse_list(&LISTS[CG_BEVEL - 1], NONE, 14, 0, 2);
    refuse_list(&LISTS[CG_SNUB - 1], NONE, 14, 0, 1);
}

/* As much as always does. */
static void lend_most(void)
{
    lend(&out, CG_LIMIT + 1, CG_LIMIT, 3 * CG_LIMIT);
    lend(&first, CG_LIMIT + 1, CG_LIMIT, 3 * CG_LIMIT);
    lend(&second, CG_LIMIT + 1, CG_LIMIT, 3 * CG_LIMIT);
}

/* With it 13 does not come: done, and where a result is over a limit, 12. */
static void list_most(void)
{
    expected e;
    size_t i;
    tetrahedron(1);
    for (i = 0; i < LIST_COUNT; i++) {
        e = follow_list(&LISTS[i], NONE);
        lend_most();
        expect_run(LISTS[i].name, &e, call_list(LISTS[i].code, NONE));
    }
    surface(58);
    e = refusal(12, 1, 1);
    lend_most();
    expect_run("zip", &e, call_list(CG_ZIP, NONE));
}

static void list_unknown(void)
{
    static const uint32_t codes[3] = {0, 11, 0xFFFFFFFFu};
    const expected e = refusal(17, 0, 0);
    size_t i;
    for (i = 0; i < 3; i++) {
        tetrahedron(1);
        lend_all();
        expect_run("list", &e, call_list(codes[i], NONE));
        make_falling();
        lend_all();
        expect_run("list", &e, call_list(codes[i], NONE));
    }
}

static void test_lists(void)
{
    size_t i;
    for (i = 0; i < LIST_COUNT; i++) {
        list_done(&LISTS[i]);
        list_numbers(&LISTS[i]);
        list_faults(&LISTS[i]);
        list_room(&LISTS[i]);
    }
    list_later();
    list_most();
    list_unknown();
}

/* ---- recipes */

enum { LEDGER = 72 };

static uint32_t ledger[LEDGER];

static cg_answer call_recipe(const cg_step *steps, size_t n, size_t lent)
{
    if (by_structs)
        return cg_recipe_of(steps, n, ledger, lent, whole(&in), ROOMS);
    return cg_recipe(steps, n, ledger, lent, RUNS(&in), RUNS(&first), RUNS(&second), RUNS(&out));
}

/* Calls it with a ledger of so many numbers, and asks of these that just the finished rows were written. */
static void expect_recipe(const cg_step *steps, size_t n, size_t lent, const expected *e)
{
    size_t i;
    bool kept = true;
    cg_answer a;
    for (i = 0; i < LEDGER; i++)
        ledger[i] = (uint32_t)(7 + i);
    a = call_recipe(steps, n, lent);
    for (i = 4 * e->finished; i < LEDGER; i++)
        kept = kept && ledger[i] == (uint32_t)(7 + i);
    expect("ledger", kept && memcmp(ledger, e->rows, 16 * e->finished) == 0, a);
    expect_run("recipe", e, a);
}

static expected run_recipe(const cg_step *steps, size_t n)
{
    expected e = follow(steps, n, NONE.masks);
    lend_all();
    expect_recipe(steps, n, 4 * n, &e);
    lend_all();
    expect_recipe(steps, n, 4 * n + 3, &e);
    return e;
}

static void refuse_recipe(const cg_step *steps, size_t n, uint32_t number, uint32_t place, uint32_t at)
{
    expected e = run_recipe(steps, n);
    expect("recipe", is(e.answer, number, place, at), e.answer);
}

/* Refused before its first step. */
static void refuse_early(const cg_step *steps, size_t n, size_t lent, uint32_t number, uint32_t place)
{
    const expected e = refusal(number, place, 0);
    lend_all();
    expect_recipe(steps, n, lent, &e);
}

/* The paper's, each step alone, each before and after a dual, and sixteen. */
static void recipe_done(void)
{
    static const uint32_t paper[8] = {4, 20, 30, 12, 2, 80, 120, 42};
    cg_step steps[16];
    uint32_t code;
    expected e;
    tetrahedron(1);
    steps[0] = plain(CG_GYRO);
    steps[1] = plain(CG_CHAMFER);
    e = run_recipe(steps, 2);
    expect("recipe", e.finished == 2 && memcmp(e.rows, paper, sizeof paper) == 0, e.answer);
    for (code = CG_AMBO; code <= CG_TRIANGULATE; code++) {
        steps[0] = steps[2] = plain(CG_DUAL);
        steps[1] = plain(code);
        run_recipe(steps + 1, 1);
        run_recipe(steps, 3);
    }
    for (code = 0; code < 16; code++)
        steps[code] = plain(code % 3 == 0 ? CG_DUAL : code % 3 == 1 ? CG_REVERSE : CG_REFLECT);
    run_recipe(steps, 16);
}

/* Numbers that are present, those that are not finite in the step that has them. */
static void recipe_numbers(void)
{
    cg_step steps[2];
    tetrahedron(1);
    steps[0] = step(CG_WHIRL, CG_RATIO + CG_HEIGHT, 0.25f, 0.5f);
    steps[1] = step(CG_QUINTO, CG_HEIGHT, 0, 0.75f);
    run_recipe(steps, 2);
    steps[1].height = NAN;
    refuse_recipe(steps, 2, 3, 1, 2);
    steps[1] = step(CG_PROPELLOR, CG_RATIO, -INFINITY, 0);
    refuse_recipe(steps, 2, 3, 0, 2);
    steps[0].ratio = INFINITY;
    refuse_recipe(steps, 2, 3, 0, 1);
}

static void recipe_faults(void)
{
    cg_step steps[3];
    size_t i;
    steps[0] = plain(CG_REVERSE);
    steps[1] = steps[2] = plain(CG_DUAL);
    for (i = 0; i < TO_11; i++) {
        FAULTS[i].mesh();
        refuse_recipe(steps + 1, 2, FAULTS[i].number, FAULTS[i].place, 1);
        refuse_recipe(steps, 3, FAULTS[i].number, FAULTS[i].place, i < TO_7 ? 1 : 2);
    }
    heap(3e38f);
    refuse_recipe(steps, 3, 14, 0, 2);
}

static void recipe_limits(void)
{
    cg_step steps[2];
    expected e;
    steps[0] = steps[1] = plain(CG_KIS);
    with_spares(59990);
    e = follow(steps, 2, NONE.masks);
    expect("recipe", is(e.answer, 12, 2, 2) && e.finished == 1, e.answer);
    lend_all();
    lend(&first, 100, 100, 180000);
    expect_recipe(steps, 2, 8, &e);
}

/* Room that always does: 12 after seven steps, and copies of meshes at a limit, which one element less cannot hold. */
static void recipe_most(void)
{
    cg_step steps[16];
    uint32_t i;
    expected e;
    for (i = 0; i < 16; i++)
        steps[i] = plain(CG_KIS);
    tetrahedron(1);
    e = follow(steps, 16, NONE.masks);
    expect("recipe", is(e.answer, 12, 1, 8) && e.finished == 7, e.answer);
    lend_most();
    expect_recipe(steps, 16, 4 * CG_STEPS, &e);
    for (i = 0; i < 3; i++)
        steps[i] = plain(CG_REVERSE);
    for (i = 1; i < 3; i++) {
        if (i == 1)
            stack(1000);
        else
            with_spares(CG_LIMIT);
        e = follow(steps, 3, NONE.masks);
        lend_most();
        expect_recipe(steps, 3, 4 * CG_STEPS, &e);
        expect("recipe", e.answer.number == 0, e.answer);
        e.answer = refusal(13, i, 2).answer;
        e.finished = 1;
        lend_most();
        lend(&second, CG_LIMIT + 1, CG_LIMIT - (i == 1), 3 * CG_LIMIT - (i == 2));
        expect_recipe(steps, 3, 4 * CG_STEPS, &e);
    }
}

static void recipe_room(void)
{
    cg_step steps[5];
    size_t i, place;
    expected e;
    tetrahedron(1);
    for (i = 0; i < 5; i++)
        steps[i] = plain(i % 2 == 0 ? CG_KIS : CG_DUAL);
    e = follow(steps, 5, NONE.masks);
    for (i = 0; i < 5; i++)
        for (place = 0; place < 3; place++) {
            expected short_of = e;
            lend_all();
            short_of.answer = refusal(13, (uint32_t)place, shorten(&e, 5, i, place)).answer;
            short_of.finished = short_of.answer.step - 1;
            expect_recipe(steps, 5, 20, &short_of);
        }
}

/* No steps: a copy, where 8 to 11 are not asked. */
static void recipe_none(void)
{
    cg_step none = plain(0);
    size_t i;
    for (i = 0; i < TO_11; i++) {
        FAULTS[i].mesh();
        if (i < TO_7) {
            refuse_early(&none, 0, 0, FAULTS[i].number, FAULTS[i].place);
        } else {
            expected e = refusal(0, 0, 0);
            e.answer.v = (uint32_t)in.coords_length / 3;
            e.answer.e = (uint32_t)in.corners_length / 2;
            e.answer.f = (uint32_t)in.offsets_length - 1;
            e.result = &in;
            lend_all();
            expect_recipe(&none, 0, 0, &e);
        }
    }
    tetrahedron(1);
    for (i = 0; i < 3; i++) {
        const expected e = refusal(13, (uint32_t)i, 0);
        lend_all();
        lend(&out, i == 0 ? 4 : 5, i == 1 ? 11 : 12, i == 2 ? 11 : 12);
        expect_recipe(&none, 0, 0, &e);
    }
}

/* Words that are no step. */
static cg_step bad_step(size_t i)
{
    switch (i) {
    case 0: return plain(0);
    case 1: return plain(12);
    case 2: return step(CG_GYRO, 4, 0, 0);
    case 3: return step(CG_KIS, CG_RATIO, 0.5f, 0);
    case 4: return step(CG_AMBO, CG_HEIGHT, 0, 0.5f);
    case 5: return step(CG_AMBO, 0, 0.5f, 0);
    case 6: return step(CG_QUINTO, CG_HEIGHT, -0.0f, 0.5f);
    default: return step(CG_DUAL, 0, 0, 0.5f);
    }
}

enum { BAD_STEPS = 8 };

/* Over sixteen steps, words that are no step, a short ledger: in this order, and before the mesh is looked at. */
static void recipe_early(void)
{
    cg_step steps[17];
    size_t i;
    for (i = 0; i < 17; i++)
        steps[i] = plain(CG_DUAL);
    make_falling();
    refuse_early(steps, 3, 11, 13, 3);
    refuse_early(steps, 16, 63, 13, 3);
    refuse_early(steps, 17, 68, 2, 3);
    for (i = 0; i < BAD_STEPS; i++) {
        steps[2 + i] = bad_step(i);
        refuse_early(steps, 3 + i, 12 + 4 * i, 17, 32 + 16 * (uint32_t)i);
        refuse_early(steps, 16, 0, 17, 32 + 16 * (uint32_t)i);
        refuse_early(steps, 17, 68, 2, 3);
        steps[2 + i] = plain(CG_DUAL);
    }
}

static void test_recipes(void)
{
    recipe_done();
    recipe_numbers();
    recipe_faults();
    recipe_limits();
    recipe_most();
    recipe_room();
    recipe_none();
    recipe_early();
}
