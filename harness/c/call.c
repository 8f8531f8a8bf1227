/* Calls the library from C: opens a study of two components, prints the loss of its load and its figures, what an edit and a study are refused by,
 * its report with the bounds of its classes, the paths, loss and SAIFI of a drawn tree, the chances from a rate and hours, and the bytes of the study
 * once edited. */
#include "grid.h"

#include <inttypes.h>
#include <stdio.h>

/* Two components that fail at 0.1 and 0.2; the load, 100 customers, is lost when either fails. */
static const uint8_t bytes[] = {
    2, 1, 1,                                     /* components, gates, loads */
    2, 0x00, 0xE1, 0xF5, 0x05,                   /* component 0 */
    2, 0x00, 0xC2, 0xEB, 0x0B,                   /* component 1 */
    2, 2, 0, 2, 1, 2,                            /* gate 0 */
    7, 0, 100, 0, 0, 0, 60, 0, 0, 0,             /* load 0 */
};

/* Another way to lose the load: component 1 is asked first, and where it has failed component 0; the load is lost when both have. */
static const uint8_t tree[] = {
    1,                                           /* component 1 */
    255, 0,                                      /* up: nothing is lost */
    0,                                           /* failed: component 0 */
    255, 0,                                      /* up: nothing is lost */
    255, 1,                                      /* failed: load 0 is lost */
};

/* Prints what an answer below 0 means, as "REFUSED 6 over one". */
static void print_refusal(int64_t answer)
{
    uint8_t word[GRID_WORD_BYTES];
    int64_t size = grid_refusal_word((uint8_t)-answer, word, sizeof word);

    printf("REFUSED %" PRId64 " %.*s\n", -answer, (int)size, (const char *)word);
}

/* Prints a lower and an upper bound behind their name. */
static void print_bounds(const char *name, struct grid_bounds bounds)
{
    printf("%s %" PRIu64 " %" PRIu64 "\n", name, bounds.lower, bounds.upper);
}

/* Prints the report of the study and the bounds of classes 0 and 1 beside it, and what a report with a place too few for them is refused by. */
static int print_report(void)
{
    static uint8_t text[GRID_REPORT_BYTES];
    uint64_t lower[GRID_CLASS_PLACES];
    uint64_t upper[GRID_CLASS_PLACES];
    int64_t size = grid_report(bytes, sizeof bytes, text, sizeof text, lower, GRID_CLASS_PLACES, upper, GRID_CLASS_PLACES);

    if (size < 0)
        return 1;
    printf("%.*s", (int)size, (const char *)text);
    print_bounds("CLASS 0", (struct grid_bounds){lower[0], upper[0]});
    print_bounds("CLASS 1", (struct grid_bounds){lower[1], upper[1]});
    print_refusal(grid_report(bytes, sizeof bytes, text, sizeof text, lower, GRID_CLASS_PLACES, upper, GRID_CLASS_PLACES - 1));
    return 0;
}

/* Prints the bounds for the chance that a component of 1,000 FIT fails within a year, and what a rate that is too high is refused by. */
static int print_chances(void)
{
    struct grid_chances chances;

    if (grid_chances_of(1000, 8760, &chances) != 0)
        return 1;
    print_bounds("SURVIVES", chances.survival);
    print_bounds("FAILS", chances.failure);
    print_refusal(grid_chances_of(4000000000, 6, &chances));
    return 0;
}

/* Edits the study, writes it out and prints its bytes: component 1 fails no more, and the load has 250 customers. */
static int print_edited(uint8_t *study, size_t study_len)
{
    uint8_t saved[GRID_LONGEST_STUDY];
    int64_t size;

    if (grid_set_probabilities(study, study_len, 1, 0, 0, 0) != 0)
        return 1;
    if (grid_set_customers(study, study_len, 0, 250) != 0)
        return 1;
    size = grid_write(study, study_len, saved, sizeof saved);
    if (size < 0)
        return 1;
    printf("SAVED");
    for (int64_t k = 0; k < size; k++)
        printf(" %02X", saved[k]);
    printf("\n");
    return 0;
}

/* Prints the paths and the SAIFI of the study with the tree in place of its gates, and what the tree without its end is refused by. */
static int print_drawn(const uint8_t *study, size_t study_len)
{
    uint8_t list[GRID_LIST_BYTES];
    struct grid_bounds load;
    struct grid_figures figures;
    int64_t paths = grid_drawn_list_paths(study, study_len, tree, sizeof tree, list, sizeof list);

    for (int64_t k = 0; k < paths; k++)
        printf("PATH %d %d CLASS %d\n", list[3 * k], list[3 * k + 1], list[3 * k + 2]);
    if (grid_drawn_load_bounds_of(study, study_len, tree, sizeof tree, 0, &load) != 0)
        return 1;
    print_bounds("LOAD 0", load);
    if (grid_drawn_figures_of(study, study_len, tree, sizeof tree, &figures) != 4)
        return 1;
    print_bounds("SAIFI", figures.saifi);
    print_refusal(grid_drawn_figures_of(study, study_len, tree, sizeof tree - 1, &figures));
    return 0;
}

int main(void)
{
    uint8_t study[GRID_STUDY_BYTES];
    struct grid_bounds load;
    struct grid_figures figures;

    if (grid_open(bytes, sizeof bytes, study, sizeof study) != 0)
        return 1;
    if (grid_load_bounds_of(study, sizeof study, 0, &load) != 0)
        return 1;
    print_bounds("LOAD 0", load);
    if (grid_figures_of(study, sizeof study, &figures) != 4)
        return 1;
    print_bounds("SAIFI", figures.saifi);
    print_bounds("SAIDI", figures.saidi);
    print_bounds("CAIDI", figures.caidi);
    print_bounds("MAIFI", figures.maifi);
    print_refusal(grid_set_probabilities(study, sizeof study, 0, 1000000001, 0, 0));
    print_refusal(grid_open(bytes, sizeof bytes - 1, study, sizeof study));
    if (print_report() != 0)
        return 1;
    if (print_drawn(study, sizeof study) != 0)
        return 1;
    if (print_chances() != 0)
        return 1;
    return print_edited(study, sizeof study);
}
