/* Tests the panel file: written, read back and run, and with each number that reading and writing can answer. */

enum { FILE_ROOM = 20000 };

static uint8_t bytes[FILE_ROOM];
static size_t bytes_length;

/* ---- files made here, word by word, with where each item starts */

static size_t items[2100], item_count;

static void add_item(void) { items[item_count++] = bytes_length; }

static void set_word(size_t at, uint32_t word)
{
    size_t i;
    for (i = 0; i < 4; i++)
        bytes[at + i] = (uint8_t)(word >> (8 * i));
}

static void add_word(uint32_t word)
{
    set_word(bytes_length, word);
    bytes_length += 4;
}

static void add_count(size_t count)
{
    add_item();
    add_word((uint32_t)count);
}

static void add_float(float x)
{
    uint32_t word;
    memcpy(&word, &x, sizeof word);
    add_word(word);
}

static void add_step(cg_step s)
{
    add_item();
    add_word(s.code);
    add_word(s.flags);
    add_float(s.ratio);
    add_float(s.height);
}

/* These steps and the mesh that is read. */
static void make_file(const cg_step *steps, size_t n)
{
    size_t i, f;
    bytes_length = item_count = 0;
    add_count(n);
    for (i = 0; i < n; i++)
        add_step(steps[i]);
    add_count(in.coords_length / 3);
    for (i = 0; i < in.coords_length; i++) {
        if (i % 3 == 0)
            add_item();
        add_float(in.coords[i]);
    }
    add_count(in.offsets_length - 1);
    for (f = 0; f + 1 < in.offsets_length; f++) {
        add_count(in.offsets[f + 1] - in.offsets[f]);
        for (i = in.offsets[f]; i < in.offsets[f + 1]; i++)
            add_count(in.corners[i]);
    }
}

/* ---- reading */

static cg_step read_steps[18], kept_steps[18];

static void expect_filing(const char *name, bool good, cg_filing f)
{
    cg_answer a;
    a.number = f.number;
    a.place = f.place;
    a.step = f.steps;
    a.v = f.positions;
    a.e = f.corners;
    a.f = f.faces;
    expect(name, good, a);
}

static bool is_refusal(cg_filing f, uint32_t number, size_t place)
{
    return f.number == number && f.place == place && f.steps == 0 && f.positions == 0 && f.faces == 0 && f.corners == 0;
}

/* Whether so many steps and the mesh that is read are said to be in the file. */
static bool is_filing(cg_filing f, size_t steps)
{
    return f.number == 0 && f.place == 0 && f.steps == steps && f.positions == in.coords_length / 3
        && f.faces == in.offsets_length - 1 && f.corners == in.corners_length;
}

static cg_filing call_read(void)
{
    return by_structs ? cg_panel_read_of(bytes, bytes_length, room(&out))
                      : cg_panel_read(bytes, bytes_length, RUNS(&out));
}

static cg_filing call_steps(size_t lent)
{
    memset(read_steps, 9, sizeof read_steps);
    memcpy(kept_steps, read_steps, sizeof kept_steps);
    return cg_panel_steps(bytes, bytes_length, read_steps, lent);
}

static bool steps_kept(size_t from)
{
    return memcmp(read_steps + from, kept_steps + from, (18 - from) * sizeof *read_steps) == 0;
}

/* Both readers refuse the file. */
static void refuse_file(uint32_t number, size_t place)
{
    cg_filing f;
    fill();
    f = call_read();
    expect_filing("panel_read", is_refusal(f, number, place) && untouched(&out, 0, 0, 0), f);
    f = call_steps(17);
    expect_filing("panel_steps", is_refusal(f, number, place) && steps_kept(0), f);
}

/* The file that was made gives these steps and the mesh that is read. */
static void read_file(const cg_step *steps, size_t n)
{
    size_t offsets = in.offsets_length, corners = in.corners_length, coords = in.coords_length, place;
    cg_filing f;
    lend(&out, offsets + 9, corners + 9, coords + 9);
    f = call_read();
    expect_filing("panel_read", is_filing(f, n) && written(&in), f);
    for (place = 0; place < 3; place++) {
        lend(&out, offsets - (place == 0), corners - (place == 1), coords - (place == 2));
        f = call_read();
        expect_filing("panel_read", is_refusal(f, 13, place) && untouched(&out, 0, 0, 0), f);
    }
    lend(&out, offsets, corners, coords);
    f = call_read();
    expect_filing("panel_read", f.number == 0 && written(&in), f);
    f = call_steps(n);
    expect_filing("panel_steps", is_filing(f, n) && steps_kept(n), f);
    expect_filing("panel_steps", memcmp(read_steps, steps, n * sizeof *steps) == 0, f);
    if (n > 0) {
        f = call_steps(n - 1);
        expect_filing("panel_steps", is_refusal(f, 13, 3) && steps_kept(0), f);
    }
}

/* ---- writing */

static uint8_t file[FILE_ROOM];

static void expect_writing(bool good, cg_writing w)
{
    cg_answer a;
    memset(&a, 0, sizeof a);
    a.number = w.number;
    a.place = w.place;
    a.v = w.bytes;
    expect("panel_write", good, a);
}

static bool file_kept(size_t from)
{
    size_t i;
    for (i = from; i < FILE_ROOM; i++)
        if (file[i] != (uint8_t)(7 + i))
            return false;
    return true;
}

static cg_writing call_write(const cg_step *steps, size_t n, size_t lent)
{
    size_t i;
    for (i = 0; i < FILE_ROOM; i++)
        file[i] = (uint8_t)(7 + i);
    return by_structs ? cg_panel_write_of(steps, n, whole(&in), file, lent)
                      : cg_panel_write(steps, n, RUNS(&in), file, lent);
}

static void refuse_write(const cg_step *steps, size_t n, size_t lent, uint32_t number, uint32_t place)
{
    cg_writing w = call_write(steps, n, lent);
    expect_writing(w.number == number && w.place == place && w.bytes == 0 && file_kept(0), w);
}

/* Written, it is the file that was made; one byte less does not hold it. */
static void write_file(const cg_step *steps, size_t n)
{
    cg_writing w = call_write(steps, n, bytes_length);
    expect_writing(w.number == 0 && w.place == 0 && w.bytes == bytes_length && file_kept(bytes_length), w);
    expect_writing(memcmp(file, bytes, bytes_length) == 0, w);
    refuse_write(steps, n, bytes_length - 1, 13, 0);
}

/* ---- the two together */

/* The steps that were read, run on the mesh that was read. */
static void run_file(void)
{
    expected e;
    cg_filing f;
    fill();
    f = call_read();
    in.offsets_length = f.faces + 1;
    in.corners_length = f.corners;
    in.coords_length = 3 * (size_t)f.positions;
    memcpy(in.offsets, out.offsets, in.offsets_length * sizeof *in.offsets);
    memcpy(in.corners, out.corners, in.corners_length * sizeof *in.corners);
    memcpy(in.coords, out.coords, in.coords_length * sizeof *in.coords);
    f = call_steps(16);
    e = run_recipe(read_steps, f.steps);
    expect("file", e.answer.number == 0 && e.finished == f.steps, e.answer);
}

static void file_done(void)
{
    cg_step steps[16];
    size_t n;
    for (n = 0; n < 16; n++)
        steps[n] = plain(n % 2 == 0 ? CG_DUAL : CG_REFLECT);
    steps[0] = step(CG_WHIRL, CG_RATIO + CG_HEIGHT, 0.25f, -0.5f);
    steps[1] = step(CG_KIS, CG_HEIGHT, 0, -0.0f);
    for (n = 0; n <= 16; n += 4) {
        tetrahedron(1);
        make_file(steps, n);
        write_file(steps, n);
        read_file(steps, n);
        if (n > 0)
            run_file();
    }
    make_outside(); /* not a good mesh: written and read all the same */
    make_file(steps, 2);
    write_file(steps, 2);
    read_file(steps, 2);
}

/* 15 for each shorter file, 18 for a longer one. */
static void file_ends(void)
{
    cg_step steps[2];
    size_t whole_length, i = 0;
    steps[0] = plain(CG_GYRO);
    steps[1] = step(CG_AMBO, CG_RATIO, 0.5f, 0);
    tetrahedron(1);
    make_file(steps, 2);
    whole_length = bytes_length;
    for (bytes_length = 0; bytes_length < whole_length; bytes_length++) {
        while (i + 1 < item_count && items[i + 1] <= bytes_length)
            i++;
        refuse_file(15, items[i]);
    }
    bytes_length = whole_length + 1;
    refuse_file(18, whole_length);
}

/* 16 at each count and at an arity; the largest counts are read. */
static void file_counts(void)
{
    cg_step none = plain(0);
    uint32_t i;
    clear();
    make_file(&none, 0);
    set_word(0, 17);
    refuse_file(16, 0);
    set_word(0, 0);
    set_word(4, 401);
    refuse_file(16, 4);
    set_word(4, 0);
    set_word(8, 401);
    refuse_file(16, 8);
    for (i = 0; i < 400; i++) {
        add_triangle(i, (i + 1) % 400, (i + 2) % 400);
        add_point((float)i, 1, -1);
    }
    make_file(&none, 0);
    write_file(&none, 0);
    read_file(&none, 0);
    set_word(bytes_length - 16, 4);
    refuse_file(16, bytes_length - 16);
    clear();
    make_file(&none, 0);
    set_word(8, 1);
    add_word(1201);
    refuse_file(16, 12);
}

/* 17: words that are no step, in a file and where one is to be written. */
static void file_steps(void)
{
    cg_step steps[3];
    size_t i;
    tetrahedron(1);
    steps[0] = steps[2] = plain(CG_DUAL);
    for (i = 0; i < BAD_STEPS; i++) {
        steps[1] = bad_step(i);
        make_file(steps, 3);
        refuse_file(17, 20);
        refuse_write(steps, 3, FILE_ROOM, 17, 16);
        refuse_write(steps, 3, 0, 17, 16);
    }
}

/* 1, then 2 of steps, faces, corners, positions, then 13. */
static void write_limits(void)
{
    cg_step steps[17];
    uint32_t i;
    for (i = 0; i < 17; i++)
        steps[i] = plain(CG_DUAL);
    make_falling();
    refuse_write(steps, 17, FILE_ROOM, 1, 0);
    make_uneven();
    refuse_write(steps, 17, FILE_ROOM, 1, 1);
    tetrahedron(1);
    refuse_write(steps, 17, 0, 2, 3);
    steps[3] = plain(0);
    refuse_write(steps, 17, 0, 2, 3);
    clear();
    for (i = 0; i < 401; i++)
        add_triangle(0, 1, 2);
    refuse_write(steps, 3, 0, 2, 0);
    stack(21);
    refuse_write(steps, 3, 0, 2, 1);
    with_spares(401);
    refuse_write(steps, 3, 0, 2, 2);
    refuse_write(steps, 0, 0, 2, 2);
    tetrahedron(1);
    refuse_write(steps, 3, 0, 13, 0);
}

static float float_of(uint32_t word)
{
    float x;
    memcpy(&x, &word, sizeof x);
    return x;
}

/* Every NaN is written as one; all other numbers with their own bits. */
static void file_nans(void)
{
    static const uint32_t words[8] = {0x7FC00000u, 0x7FC01234u, 0xFFC00000u, 0x7F800001u, 0xFFFFFFFFu,
                                      0x7F800000u, 0xFF800000u, 0x80000000u};
    size_t i;
    for (i = 0; i < 8; i++) {
        cg_step s = step(CG_GYRO, CG_RATIO + CG_HEIGHT, float_of(words[i]), float_of(words[i]));
        cg_step one = s;
        tetrahedron(1);
        in.coords[4] = float_of(words[i]);
        if (i < 5)
            in.coords[4] = one.ratio = one.height = float_of(0x7FC00000u);
        make_file(&one, 1);
        in.coords[4] = float_of(words[i]);
        write_file(&s, 1);
    }
}

static void test_files(void)
{
    file_done();
    file_ends();
    file_counts();
    file_steps();
    file_nans();
    write_limits();
}
