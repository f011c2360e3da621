/*
 * merge.c: types made, merged and asked in a store that stands in an array. From the repository's folder:
 *
 *     cc -std=c99 -I include examples/merge.c target/staticlib/liblattice_c.a -o target/merge && target/merge
 */
#include <inttypes.h>
#include <stdio.h>
#include <stdlib.h>
#include <string.h>

#include "ferigulan.h"

#define WORDS 512

static uint64_t words[WORDS];
static uint64_t index_list[FERIGULAN_INDEX_LENGTH(WORDS)];
static uint64_t memory[FERIGULAN_MEMORY_LENGTH(WORDS)];

/* A call that has to be accepted: says which one was not, and ends the program. */
static void must(uint32_t status, const char *call)
{
    if (status != FERIGULAN_ACCEPTED) {
        fprintf(stderr, "merge: %s was refused with %" PRIu32 "\n", call, status);
        exit(EXIT_FAILURE);
    }
}

static uint64_t name(const char *text)
{
    uint64_t handle = 0;
    must(ferigulan_get_str(words, WORDS, (const uint8_t *)text, strlen(text), &handle), "get_str");
    return handle;
}

static uint64_t range(int64_t min, int64_t max)
{
    uint64_t handle = 0;
    must(ferigulan_make_int(words, WORDS, (uint64_t)min, (uint64_t)max, &handle), "make_int");
    return handle;
}

static void print_int(uint64_t handle)
{
    uint64_t min = 0, max = 0;
    must(ferigulan_int_min(words, WORDS, handle, &min), "int_min");
    must(ferigulan_int_max(words, WORDS, handle, &max), "int_max");
    printf("%" PRId64 "..%" PRId64, (int64_t)min, (int64_t)max);
}

/* A counter of 0..7 and the value 8, merged in one order. */
static uint64_t merge(uint64_t a, uint64_t b)
{
    uint64_t merged = 0;
    must(ferigulan_meet(words, WORDS, a, b, &merged), "meet");
    print_int(a);
    printf(" meet ");
    print_int(b);
    printf(" = ");
    print_int(merged);
    printf(", handle %" PRIu64 "\n", merged);
    return merged;
}

/* A block that is entered from k places: the counter at each of them, merged by one call. Where it is refused, nothing
   of it is left in the store. */
static void merge_all(const uint64_t *types, size_t k)
{
    uint64_t merged = 0;
    must(ferigulan_meet_list(words, WORDS, types, k, &merged), "meet_list");
    printf("%d places merged at once: ", (int)k);
    print_int(merged);
    printf(", handle %" PRIu64 "\n", merged);
}

static void ask(uint64_t a, uint64_t b)
{
    uint64_t yes = 0;
    must(ferigulan_isa(words, WORDS, a, b, &yes), "isa");
    print_int(a);
    printf(" isa ");
    print_int(b);
    printf(": %s\n", yes ? "yes" : "no");
}

/* A struct of three fields: each is its name, its type, its alias, and 1 if it is final. */
static uint64_t ride(void)
{
    uint64_t handle = 0;
    uint64_t fields[3 * FERIGULAN_FIELD_WORDS] = {
        name("gate"), FERIGULAN_INT_BOOL, 1, 0,
        name("speed"), FERIGULAN_INT_U16, 2, 0,
        name("serial"), FERIGULAN_INT_BOT, 3, 1,
    };
    must(ferigulan_get_struct(words, WORDS, name("Ride"), fields, sizeof fields / sizeof fields[0], &handle),
        "get_struct");
    return handle;
}

static void print_offsets(uint64_t structure)
{
    uint64_t offsets[8], filled = 0, i;
    must(ferigulan_offsets(words, WORDS, structure, offsets, sizeof offsets / sizeof offsets[0], &filled), "offsets");
    printf("the fields of Ride begin at bytes");
    for (i = 0; i + 1 < filled; i++)
        printf(" %" PRIu64, offsets[i]);
    printf("; it ends at %" PRIu64 "\n", offsets[filled - 1]);
}

/* A call that may be refused: the program goes on. */
static void try_log_size(uint64_t type)
{
    uint64_t log_size = 0;
    uint32_t status = ferigulan_log_size(words, WORDS, type, &log_size);
    print_int(type);
    if (status == FERIGULAN_NO_LOG_SIZE)
        printf(" has no log size, and can be no field that is laid out\n");
    else if (status == FERIGULAN_ACCEPTED)
        printf(" takes %d bytes as a field\n", 1 << log_size);
    else
        must(status, "log_size");
}

/* The same store, opened: calls need not read all words. Until the last opened call nobody else may write the lists. */
static void merge_opened(uint64_t a, uint64_t b)
{
    uint64_t merged = 0, yes = 0;
    size_t n = WORDS, i = FERIGULAN_INDEX_LENGTH(WORDS), m = FERIGULAN_MEMORY_LENGTH(WORDS);
    must(ferigulan_open(words, n, index_list, i, memory, m), "open");
    must(ferigulan_opened_meet(words, n, index_list, i, memory, m, a, b, &merged), "opened_meet");
    must(ferigulan_opened_isa(words, n, index_list, i, memory, m, a, merged, &yes), "opened_isa");
    printf("opened: ");
    print_int(a);
    printf(" meet ");
    print_int(b);
    printf(" has handle %" PRIu64 ", and ", merged);
    print_int(a);
    printf(" isa it: %s\n", yes ? "yes" : "no");
}

int main(void)
{
    uint64_t counter, eight, merged, places[6];
    must(ferigulan_fresh(words, WORDS), "fresh");
    counter = range(0, 7);
    eight = range(8, 8);
    merged = merge(counter, eight);
    merge(eight, counter);
    places[0] = eight;
    places[1] = FERIGULAN_INT_TWO;
    places[2] = FERIGULAN_INT_BOOL;
    places[3] = counter;
    places[4] = FERIGULAN_INT_ONE;
    places[5] = counter;
    merge_all(places, sizeof places / sizeof places[0]);
    ask(counter, merged);
    ask(merged, counter);
    print_offsets(ride());
    try_log_size(FERIGULAN_INT_U16);
    try_log_size(counter);
    merge_opened(counter, eight);
    printf("%" PRIu64 " of %d words are used\n", words[0], WORDS);
    return EXIT_SUCCESS;
}
