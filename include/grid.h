/* The calls of the planning package for C. Link crates/exports/out/libexports.a.
 *
 * A slice is a pointer and its length in elements. Bounds of a load, of the figures and of the chances go to a number each, by its pointer; the calls at
 * the end, with `_of` behind their names, take a struct of these numbers. A call answers a count or 0, or a refusal as its number below 0; the numbers
 * are those of the refusal table. Where a call is refused, nothing lent is touched. No call keeps a pointer, and what is lent must not overlap.
 *
 * A drawn tree is a row of bytes beside a study: a component's number and behind it a subtree for each of its states, from state 0 on; or 255 and
 * behind it a class. Each branch may ask components in an order of its own, but none twice. For that one call the tree stands in for the gates and
 * loss gates of the study: a joint state has the class of the leaf that it comes to, and load j is lost where bit j of it stands. The tree is judged
 * from left to right: a component that the study lacks, or that is asked above on the same branch, is 20; a class with the bit of a load that the
 * study lacks is 22; bytes that end too soon, or go on behind the whole tree, are 21. The study must be sound with its gates all the same (16).
 */
#ifndef GRID_H
#define GRID_H

#include <stddef.h>
#include <stdint.h>

/* The bytes of a study's image; a slice with fewer is refused by 16, and bytes behind them are never touched. */
#define GRID_STUDY_BYTES 2087

/* Room for any study that is written: no longer one opens. */
#define GRID_LONGEST_STUDY 2023

/* Room for any list of paths: 4,096 entries of 13 bytes. */
#define GRID_LIST_BYTES 53248

/* Room for any report. */
#define GRID_REPORT_BYTES 180224

/* Room for the word of any refusal. */
#define GRID_WORD_BYTES 12

/* The places that class bounds, and a report beside its text, need in each slice. */
#define GRID_CLASS_PLACES 256

/* A lower and an upper bound. */
struct grid_bounds {
    uint64_t lower;
    uint64_t upper;
};

/* The interruption figures: SAIFI in units, SAIDI in billionths of a minute, CAIDI in whole minutes, MAIFI in units. */
struct grid_figures {
    struct grid_bounds saifi;
    struct grid_bounds saidi;
    struct grid_bounds caidi;
    struct grid_bounds maifi;
};

/* The chances of surviving and of failure, in units. */
struct grid_chances {
    struct grid_bounds survival;
    struct grid_bounds failure;
};

#ifdef __cplusplus
extern "C" {
#endif

/* Opens the bytes of a study and writes its image at the front of `study`, where the tests of a gate ascend by component, then by mask, and its
 * gate inputs ascend. Answers 0. Refused by 1 to 15, then 18. */
int64_t grid_open(const uint8_t *bytes, size_t bytes_len, uint8_t *study, size_t study_len);

/* Sets how likely states 1 to 3 of a component are. Answers 0. Refused by 16, 17, 5, 6. */
int64_t grid_set_probabilities(uint8_t *study, size_t study_len, size_t component, uint32_t p1, uint32_t p2, uint32_t p3);

/* Sets the customers of a load. Answers 0. Refused by 16, 17, 14. */
int64_t grid_set_customers(uint8_t *study, size_t study_len, size_t load, uint32_t customers);

/* Sets the restore time of a load in minutes. Answers 0. Refused by 16, 17, 14. */
int64_t grid_set_minutes(uint8_t *study, size_t study_len, size_t load, uint32_t minutes);

/* Writes a study at the front of `bytes`, which open to the same study again. A field that holds its absent value is not written. Answers the
 * number of bytes. Refused by 16, 18. */
int64_t grid_write(const uint8_t *study, size_t study_len, uint8_t *bytes, size_t bytes_len);

/* Lists the paths at the front of `buffer`: for each a byte per component, its state or 255 for blank, then the class.
 * Answers the number of paths. Refused by 16, 18. */
int64_t grid_list_paths(const uint8_t *study, size_t study_len, uint8_t *buffer, size_t buffer_len);

/* The same by a drawn tree. The entries keep the order of the study's components, whatever the order in which the tree asks them. Answers the
 * number of paths. Refused by 16, 20 to 22, 18. */
int64_t grid_drawn_list_paths(const uint8_t *study, size_t study_len, const uint8_t *tree, size_t tree_len, uint8_t *buffer,
                              size_t buffer_len);

/* Writes the bounds of each path, in units of a billionth, at the front of both slices. Answers the number of paths. Refused by 16, 18. */
int64_t grid_path_bounds(const uint8_t *study, size_t study_len, uint64_t *lower, size_t lower_len, uint64_t *upper, size_t upper_len);

/* The same by a drawn tree. Answers the number of paths. Refused by 16, 20 to 22, 18. */
int64_t grid_drawn_path_bounds(const uint8_t *study, size_t study_len, const uint8_t *tree, size_t tree_len, uint64_t *lower,
                               size_t lower_len, uint64_t *upper, size_t upper_len);

/* Writes the bounds of each class at places 0 to 255 of both slices, whatever stood there; 0 for a class that does not occur. Answers 0. Refused
 * by 16, 18. */
int64_t grid_class_bounds(const uint8_t *study, size_t study_len, uint64_t *lower, size_t lower_len, uint64_t *upper, size_t upper_len);

/* The same by a drawn tree. Answers 0. Refused by 16, 20 to 22, 18. */
int64_t grid_drawn_class_bounds(const uint8_t *study, size_t study_len, const uint8_t *tree, size_t tree_len, uint64_t *lower,
                                size_t lower_len, uint64_t *upper, size_t upper_len);

/* Writes the bounds for the loss of a load. Answers 0. Refused by 16, 17. */
int64_t grid_load_bounds(const uint8_t *study, size_t study_len, size_t load, uint64_t *lower, uint64_t *upper);

/* The same by a drawn tree. Answers 0. Refused by 16, 17, 20 to 22. */
int64_t grid_drawn_load_bounds(const uint8_t *study, size_t study_len, const uint8_t *tree, size_t tree_len, size_t load,
                               uint64_t *lower, uint64_t *upper);

/* Writes the lower and the upper bound of SAIFI (units), SAIDI (billionths of a minute), CAIDI (minutes) and MAIFI (units).
 * Loads that are restored in 5 minutes or less count in MAIFI alone, all others in the first three.
 * Answers 4, or 3 where CAIDI is not stated and its two numbers keep what they held. Refused by 16, 19. */
int64_t grid_figures(const uint8_t *study, size_t study_len, uint64_t *saifi_lower, uint64_t *saifi_upper, uint64_t *saidi_lower,
                     uint64_t *saidi_upper, uint64_t *caidi_lower, uint64_t *caidi_upper, uint64_t *maifi_lower, uint64_t *maifi_upper);

/* The same by a drawn tree. Answers 4, or 3 where CAIDI is not stated. Refused by 16, 20 to 22, 19. */
int64_t grid_drawn_figures(const uint8_t *study, size_t study_len, const uint8_t *tree, size_t tree_len, uint64_t *saifi_lower,
                           uint64_t *saifi_upper, uint64_t *saidi_lower, uint64_t *saidi_upper, uint64_t *caidi_lower,
                           uint64_t *caidi_upper, uint64_t *maifi_lower, uint64_t *maifi_upper);

/* Writes bounds, in units of a billionth, for the chance that something which fails at a rate of `fit` failures per thousand million hours survives
 * so many hours, and for the chance that it fails in them: one less each, swapped. Any number between two of them can be set as a probability. No
 * study is needed. Answers 0. Refused by 23 alone, where FIT times hours is above 20,000,000,000. */
int64_t grid_survival(uint32_t fit, uint32_t hours, uint64_t *survival_lower, uint64_t *survival_upper, uint64_t *failure_lower,
                      uint64_t *failure_upper);

/* How many loads are lost in a class: the ones of its byte. */
int64_t grid_loads_lost(uint8_t class_);

/* Writes the report of the bytes of a study at the front of `text`, and the bounds of each class at places 0 to 255 of both slices, as
 * `grid_class_bounds` does for the opened study. A study that does not open has a report of one line, and the slices, which may then be empty, are
 * not looked at. Answers the number of bytes of the report. Refused by 18 alone, for the text, then for the slices. */
int64_t grid_report(const uint8_t *bytes, size_t bytes_len, uint8_t *text, size_t text_len, uint64_t *lower, size_t lower_len,
                    uint64_t *upper, size_t upper_len);

/* Writes the word of a refusal, with no 0 behind it. Answers its number of bytes: 0 for a number that the table lacks. Refused by 18 alone. */
int64_t grid_refusal_word(uint8_t number, uint8_t *text, size_t text_len);

/* The calls for a load, for the figures and for the chances, in structs: each answers, and is refused, as the call that it passes on to. */

static inline int64_t grid_load_bounds_of(const uint8_t *study, size_t study_len, size_t load, struct grid_bounds *bounds)
{
    return grid_load_bounds(study, study_len, load, &bounds->lower, &bounds->upper);
}

static inline int64_t grid_drawn_load_bounds_of(const uint8_t *study, size_t study_len, const uint8_t *tree, size_t tree_len, size_t load,
                                                struct grid_bounds *bounds)
{
    return grid_drawn_load_bounds(study, study_len, tree, tree_len, load, &bounds->lower, &bounds->upper);
}

static inline int64_t grid_figures_of(const uint8_t *study, size_t study_len, struct grid_figures *figures)
{
    return grid_figures(study, study_len, &figures->saifi.lower, &figures->saifi.upper, &figures->saidi.lower, &figures->saidi.upper,
                        &figures->caidi.lower, &figures->caidi.upper, &figures->maifi.lower, &figures->maifi.upper);
}

static inline int64_t grid_drawn_figures_of(const uint8_t *study, size_t study_len, const uint8_t *tree, size_t tree_len,
                                            struct grid_figures *figures)
{
    return grid_drawn_figures(study, study_len, tree, tree_len, &figures->saifi.lower, &figures->saifi.upper, &figures->saidi.lower,
                              &figures->saidi.upper, &figures->caidi.lower, &figures->caidi.upper, &figures->maifi.lower,
                              &figures->maifi.upper);
}

static inline int64_t grid_chances_of(uint32_t fit, uint32_t hours, struct grid_chances *chances)
{
    return grid_survival(fit, hours, &chances->survival.lower, &chances->survival.upper, &chances->failure.lower, &chances->failure.upper);
}

#ifdef __cplusplus
}
#endif

#endif
