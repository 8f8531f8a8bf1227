/* Measures how many bytes of stack the calls need for the study whose bytes come on standard input. Each call is made in a thread of its own, on
 * a stack that was painted before: what it paints over, less what a thread that calls nothing paints over, is what it needs. Fails where a
 * call needs more than its limit. */
#define _POSIX_C_SOURCE 200809L

#include "grid.h"

#include <pthread.h>
#include <stdio.h>
#include <stdlib.h>
#include <string.h>

/* More than twice what a report needs, and no other call needs as much. */
#define STACK_BYTES ((size_t)1 << 20)

/* A page, so that what stands on the stack stands alike in every run. */
#define STACK_ALIGNMENT 4096

/* A byte that no call is likely to leave where its stack ends. */
#define PAINT 0xA5

/* What the bounds of classes and loads and the figures may need: they hold no list of paths, which alone would be more. */
#define TOTALS_LIMIT 20480

#define NO_LIMIT STACK_BYTES

/* A study has no more paths than joint states. */
#define MOST_PATHS 4096

/* The bytes of the longest tree that keeps the rules: a leaf for each of 4,096 joint states, and 4,095 nodes that part them in two. */
#define LONGEST_TREE (2 * MOST_PATHS + MOST_PATHS - 1)

/* Where the image of a study holds its components and the state count of the first, and how far apart the state counts stand. */
#define COMPONENTS_AT 0
#define STATES_AT 3
#define COMPONENT_BYTES 13

/* What is lent to the calls stands here, and so not on the stack that is measured. The bytes of a study have a place more than the longest, so that
 * one which is too long is refused and not cut short. */
static uint8_t bytes[GRID_LONGEST_STUDY + 1];
static size_t bytes_len;
static uint8_t study[GRID_STUDY_BYTES];
static uint8_t tree[LONGEST_TREE];
static size_t tree_len;
static uint8_t list[GRID_LIST_BYTES];
static uint64_t lower[MOST_PATHS];
static uint64_t upper[MOST_PATHS];
static struct grid_figures figures;
static uint8_t text[GRID_REPORT_BYTES];

static int64_t call_nothing(void)
{
    return 0;
}

static int64_t call_open(void)
{
    return grid_open(bytes, bytes_len, study, sizeof study);
}

static int64_t call_list_paths(void)
{
    return grid_list_paths(study, sizeof study, list, sizeof list);
}

static int64_t call_path_bounds(void)
{
    return grid_path_bounds(study, sizeof study, lower, MOST_PATHS, upper, MOST_PATHS);
}

static int64_t call_class_bounds(void)
{
    return grid_class_bounds(study, sizeof study, lower, GRID_CLASS_PLACES, upper, GRID_CLASS_PLACES);
}

static int64_t call_load_bounds(void)
{
    return grid_load_bounds(study, sizeof study, 0, lower, upper);
}

static int64_t call_figures(void)
{
    return grid_figures_of(study, sizeof study, &figures);
}

static int64_t call_drawn_list_paths(void)
{
    return grid_drawn_list_paths(study, sizeof study, tree, tree_len, list, sizeof list);
}

static int64_t call_drawn_path_bounds(void)
{
    return grid_drawn_path_bounds(study, sizeof study, tree, tree_len, lower, MOST_PATHS, upper, MOST_PATHS);
}

static int64_t call_drawn_class_bounds(void)
{
    return grid_drawn_class_bounds(study, sizeof study, tree, tree_len, lower, GRID_CLASS_PLACES, upper, GRID_CLASS_PLACES);
}

static int64_t call_drawn_load_bounds(void)
{
    return grid_drawn_load_bounds(study, sizeof study, tree, tree_len, 0, lower, upper);
}

static int64_t call_drawn_figures(void)
{
    return grid_drawn_figures_of(study, sizeof study, tree, tree_len, &figures);
}

static int64_t call_report(void)
{
    return grid_report(bytes, bytes_len, text, sizeof text, lower, GRID_CLASS_PLACES, upper, GRID_CLASS_PLACES);
}

/* A call with all that is handed to it, and the bytes of stack that it may need. */
struct call {
    const char *name;
    int64_t (*make)(void);
    size_t limit;
};

static const struct call nothing = {"nothing", call_nothing, NO_LIMIT};

static const struct call opening = {"grid_open", call_open, NO_LIMIT};

/* They ask the study that opening leaves, the drawn ones beside its deepest tree. */
static const struct call calls[] = {
    {"grid_list_paths", call_list_paths, NO_LIMIT},
    {"grid_path_bounds", call_path_bounds, NO_LIMIT},
    {"grid_class_bounds", call_class_bounds, TOTALS_LIMIT},
    {"grid_load_bounds", call_load_bounds, TOTALS_LIMIT},
    {"grid_figures", call_figures, TOTALS_LIMIT},
    {"grid_drawn_list_paths", call_drawn_list_paths, NO_LIMIT},
    {"grid_drawn_path_bounds", call_drawn_path_bounds, NO_LIMIT},
    {"grid_drawn_class_bounds", call_drawn_class_bounds, TOTALS_LIMIT},
    {"grid_drawn_load_bounds", call_drawn_load_bounds, TOTALS_LIMIT},
    {"grid_drawn_figures", call_drawn_figures, TOTALS_LIMIT},
    {"grid_report", call_report, NO_LIMIT},
};

/* Ends the program where something is not as it must be. */
static void expect(int so, const char *of, const char *otherwise)
{
    if (!so) {
        fprintf(stderr, "%s: %s\n", of, otherwise);
        exit(EXIT_FAILURE);
    }
}

static void *make(void *given)
{
    const struct call *call = given;

    expect(call->make() >= 0, call->name, "refused");
    return NULL;
}

/* Makes a call in a thread on the given stack. */
static void make_on(uint8_t *stack, const struct call *call)
{
    struct call handed = *call;
    pthread_attr_t attributes;
    pthread_t thread;

    expect(pthread_attr_init(&attributes) == 0, call->name, "no attributes for its thread");
    expect(pthread_attr_setstack(&attributes, stack, STACK_BYTES) == 0, call->name, "no such stack for its thread");
    expect(pthread_create(&thread, &attributes, make, &handed) == 0, call->name, "its thread does not start");
    expect(pthread_join(thread, NULL) == 0, call->name, "its thread does not end");
    expect(pthread_attr_destroy(&attributes) == 0, call->name, "the attributes of its thread stay");
}

/* How many bytes a call paints over. A stack is used from its end towards its front. */
static size_t painted_over(uint8_t *stack, const struct call *call)
{
    size_t kept = 0;

    memset(stack, PAINT, STACK_BYTES);
    make_on(stack, call);
    while (kept < STACK_BYTES && stack[kept] == PAINT)
        kept++;
    expect(kept > 0, call->name, "the stack is too small");
    return STACK_BYTES - kept;
}

/* The same at a second call: at the first, the loader may look functions up, on the stack of whoever calls them. */
static size_t used_by(uint8_t *stack, const struct call *call)
{
    painted_over(stack, call);
    return painted_over(stack, call);
}

/* Draws the subtree that asks a component and then all before it. Bit 0 of a leaf's class stands where an odd number of components has failed, so
 * that every component changes a loss. */
static void draw_from(size_t component, uint8_t odd)
{
    uint8_t states = study[STATES_AT + component * COMPONENT_BYTES];

    tree[tree_len++] = (uint8_t)component;
    for (uint8_t state = 0; state < states; state++) {
        uint8_t class_ = odd ^ (state != 0);

        if (component > 0) {
            draw_from(component - 1, class_);
        } else {
            tree[tree_len++] = 255;
            tree[tree_len++] = class_;
        }
    }
}

/* Prints what a call needs; whether it keeps to its limit. */
static int print_need(const struct call *call, size_t need)
{
    printf("%-24s %7zu\n", call->name, need);
    if (need <= call->limit)
        return 1;
    printf("%s needs %zu bytes of stack, and its limit is %zu\n", call->name, need, call->limit);
    return 0;
}

int main(void)
{
    void *stack;
    size_t idle;
    int kept = 1;

    bytes_len = fread(bytes, 1, sizeof bytes, stdin);
    expect(!ferror(stdin), "standard input", "not read");
    expect(posix_memalign(&stack, STACK_ALIGNMENT, STACK_BYTES) == 0, "stack", "no memory");
    idle = used_by(stack, &nothing);
    kept &= print_need(&opening, used_by(stack, &opening) - idle);
    draw_from(study[COMPONENTS_AT] - 1, 0);
    for (size_t k = 0; k < sizeof calls / sizeof calls[0]; k++)
        kept &= print_need(&calls[k], used_by(stack, &calls[k]) - idle);
    free(stack);
    expect(fflush(stdout) == 0 && !ferror(stdout), "standard output", "not written");
    return kept ? EXIT_SUCCESS : EXIT_FAILURE;
}
