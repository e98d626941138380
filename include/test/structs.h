/* Tests what the calls over structs add: the same elements as over runs, and null pointers where there is nothing. */

/* ---- the same as over runs */

static mesh kept; /* what a call over runs wrote */

static bool same_bits(const mesh *m, const mesh *n)
{
    return memcmp(m->offsets, n->offsets, m->offsets_length * sizeof *m->offsets) == 0
        && memcmp(m->corners, n->corners, m->corners_length * sizeof *m->corners) == 0
        && memcmp(m->coords, n->coords, m->coords_length * sizeof *m->coords) == 0;
}

static void test_forms(void)
{
    static const extras numbers = {true, true, 0.25f, 0.5f, {false, NULL, 0, false}};
    uint32_t code;
    tetrahedron(1);
    for (code = CG_AMBO; code <= CG_TRIANGULATE; code++) {
        cg_answer a, b;
        fill();
        by_structs = false;
        a = perform(code, &in, numbers, &out);
        kept = out;
        fill();
        by_structs = true;
        b = perform(code, &in, numbers, &out);
        expect("form", a.number == 0 && memcmp(&a, &b, sizeof a) == 0 && same_bits(&out, &kept), b);
    }
}

/* ---- null pointers */

/* The empty mesh, and just the room that it takes. */
static uint32_t zero_offset[1], one_offset[1];

static cg_mesh no_faces(void)
{
    cg_mesh m = {zero_offset, 1, NULL, 0, NULL, 0};
    return m;
}

static cg_room no_room(void)
{
    cg_room r = {one_offset, 1, NULL, 0, NULL, 0};
    one_offset[0] = 7;
    return r;
}

static void expect_empty(const char *name, cg_answer a)
{
    expect(name, is(a, 0, 0, 0) && one_offset[0] == 0, a);
}

static void null_meshes(void)
{
    const cg_masks all = cg_unmasked();
    const cg_mesh m = no_faces();
    expect("check_of", is(cg_check_of(m), 0, 0, 0), cg_check_of(m));
    expect("check_full_of", is(cg_check_full_of(m), 0, 0, 0), cg_check_full_of(m));
    expect("edges_of", is(cg_edges_of(m, NULL, 0), 0, 0, 0), cg_edges_of(m, NULL, 0));
    expect_empty("reverse_of", cg_reverse_of(m, no_room()));
    expect_empty("reflect_of", cg_reflect_of(m, no_room()));
    expect_empty("triangulate_of", cg_triangulate_of(m, true, no_room()));
    expect_empty("ambo_of", cg_ambo_of(m, false, 0, no_room()));
    expect_empty("dual_of", cg_dual_of(m, no_room()));
    expect_empty("kis_of", cg_kis_of(m, false, 0, cg_pick_all(), no_room()));
    expect_empty("chamfer_of", cg_chamfer_of(m, false, 0, no_room()));
    expect_empty("gyro_of", cg_gyro_of(m, false, 0, false, 0, no_room()));
    expect_empty("propellor_of", cg_propellor_of(m, false, 0, no_room()));
    expect_empty("whirl_of", cg_whirl_of(m, false, 0, false, 0, no_room()));
    expect_empty("quinto_of", cg_quinto_of(m, false, 0, no_room()));
    lend(&first, 1, 0, 0);
    lend(&second, 1, 0, 0);
    expect_empty("list_of", cg_list_of(CG_JOIN, m, false, 0, false, 0, all, room(&first), room(&second), no_room()));
    expect_empty("recipe_of", cg_recipe_of(NULL, 0, NULL, 0, m, room(&first), room(&second), no_room()));
}

/* No runs at all: refused, not read. */
static void null_runs(void)
{
    const cg_mesh m = {NULL, 0, NULL, 0, NULL, 0};
    const cg_room r = {NULL, 0, NULL, 0, NULL, 0};
    cg_answer a = cg_check_of(m);
    expect("check_of", is(a, 1, 0, 0), a);
    a = cg_dual_of(m, r);
    expect("dual_of", is(a, 1, 0, 0), a);
    a = cg_dual_of(no_faces(), r);
    expect("dual_of", is(a, 13, 0, 0), a);
    a = cg_list_of(CG_ZIP, no_faces(), false, 0, false, 0, cg_unmasked(), r, r, r);
    expect("list_of", is(a, 13, 0, 1), a);
    a = cg_recipe_of(NULL, 0, NULL, 0, no_faces(), r, r, r);
    expect("recipe_of", is(a, 13, 0, 0), a);
    tetrahedron(1);
    a = cg_edges_of(whole(&in), NULL, 0);
    expect("edges_of", is(a, 13, 0, 0), a);
}

/* Lists that are absent, whatever length stands beside them, and lists that are empty. */
static void null_picks(void)
{
    cg_picks p = {false, NULL, 9, false, NULL, 9, false};
    cg_masks masks = {false, NULL, 9, false};
    cg_answer a;
    tetrahedron(1);
    lend_all();
    a = cg_kis_of(whole(&in), false, 0, p, room(&out));
    expect("kis_of", a.number == 0 && a.f == 12, a);
    p.has_arities = true;
    p.arities_length = 0;
    a = cg_kis_of(whole(&in), false, 0, p, room(&out));
    expect("kis_of", a.number == 0 && a.f == 4, a);
    p.has_arities = false;
    p.has_numbers = true;
    p.numbers_length = 0;
    a = cg_kis_of(whole(&in), false, 0, p, room(&out));
    expect("kis_of", a.number == 0 && a.f == 4, a);
    a = cg_zip(whole(&in), false, 0, masks, ROOMS);
    expect("zip", a.number == 0 && a.f == 8, a);
    masks.has_arities = true;
    masks.arities_length = 0;
    a = cg_zip(whole(&in), false, 0, masks, ROOMS);
    expect("zip", a.number == 0 && a.f == 4, a);
}

static void null_files(void)
{
    cg_writing w = cg_panel_write_of(NULL, 0, no_faces(), file, FILE_ROOM);
    expect_writing(w.number == 0 && w.bytes == 12, w);
    expect_filing("panel_read_of", cg_panel_read_of(file, 12, no_room()).number == 0 && one_offset[0] == 0,
                  cg_panel_read_of(file, 12, no_room()));
    w = cg_panel_write_of(NULL, 0, no_faces(), NULL, 0);
    expect_writing(w.number == 13 && w.place == 0 && w.bytes == 0, w);
    expect_filing("panel_read_of", is_refusal(cg_panel_read_of(NULL, 0, no_room()), 15, 0),
                  cg_panel_read_of(NULL, 0, no_room()));
}

static void test_nulls(void)
{
    null_meshes();
    null_runs();
    null_picks();
    null_files();
}
