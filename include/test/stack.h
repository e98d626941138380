/* Tests that no call takes more stack than the header says, as bench/stack.c measures it. */

#ifdef __cplusplus
extern "C"
#endif
size_t stack_of(void (*call)(void *), void *data);

/* Of checks, edges and operators, of lists, of recipes and of calls of the panel file. */
enum { STACK_OPERATOR = 8 * 1024, STACK_LIST = 20 * 1024, STACK_RECIPE = 40 * 1024, STACK_FILE = 2 * 1024 };

static uint32_t measured; /* which operator, list or step */
static uint32_t stack_edges[1000][2];
static cg_step stack_steps[16];

static void stack_check(void) { call_check(); }
static void stack_check_full(void) { call_check_full(); }
static void stack_list_edges(void) { call_edges(stack_edges, 1000); }
static void stack_operator(void) { perform(measured, &in, NONE, &out); }
static void stack_list(void) { call_list(measured, NONE); }
static void stack_recipe(void) { call_recipe(stack_steps, 16, 64); }
static void stack_write(void) { call_write(stack_steps, 16, FILE_ROOM); }
static void stack_read(void) { call_read(); }
static void stack_read_steps(void) { call_steps(16); }

static void (*stack_call)(void);
static bool stack_ran;

static void run_measured(void *none)
{
    (void)none;
    stack_call();
    stack_ran = true;
}

static void expect_stack(const char *name, void (*call)(void), size_t most)
{
    size_t bytes;
    stack_call = call;
    stack_ran = false;
    bytes = stack_of(run_measured, NULL);
    calls++;
    if (!stack_ran || bytes >= most) {
        wrong++;
        printf("%s: %u bytes of stack\n", name, (unsigned)bytes);
    }
}

/* A pyramid of so many sides, whose base is a large face. */
static void pyramid(uint32_t sides)
{
    uint32_t base[400], i;
    clear();
    for (i = 0; i < sides; i++) {
        add_triangle(i, (i + 1) % sides, sides);
        base[i] = sides - 1 - i;
        add_point((float)i, (float)(i % 7), 1);
    }
    add_face(sides, base);
    add_point(0, 0, -1);
}

static void stack_operators(void)
{
    expect_stack("check", stack_check, STACK_OPERATOR);
    expect_stack("check_full", stack_check_full, STACK_OPERATOR);
    expect_stack("edges", stack_list_edges, STACK_OPERATOR);
    for (measured = CG_AMBO; measured <= CG_TRIANGULATE; measured++)
        expect_stack("operator", stack_operator, STACK_OPERATOR);
    for (measured = CG_BEVEL; measured <= CG_ZIP; measured++)
        expect_stack("list", stack_list, STACK_LIST);
}

/* Sixteen steps, the last each operator in turn. */
static void stack_recipes(void)
{
    size_t i;
    for (i = 0; i < 16; i++)
        stack_steps[i] = plain(i % 2 == 0 ? CG_DUAL : CG_REVERSE);
    for (measured = CG_AMBO; measured <= CG_TRIANGULATE; measured++) {
        stack_steps[15] = plain(measured);
        expect_stack("recipe", stack_recipe, STACK_RECIPE);
    }
}

static void stack_files(void)
{
    expect_stack("panel_write", stack_write, STACK_FILE);
    make_file(stack_steps, 16);
    expect_stack("panel_read", stack_read, STACK_FILE);
    expect_stack("panel_steps", stack_read_steps, STACK_FILE);
}

static void test_stack(void)
{
    lend_all();
    lend(&first, 10000, 10000, 30000);
    lend(&second, 10000, 10000, 30000);
    lend(&out, 10000, 10000, 30000);
    pyramid(300);
    stack_operators();
    tetrahedron(1);
    stack_operators();
    stack_recipes();
    stack_files();
}
