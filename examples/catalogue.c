/*
 * catalogue.c: a store saved to a file and loaded again, into a longer list. From the repository's folder:
 *
 *     cc -std=c99 -I include examples/catalogue.c target/staticlib/liblattice_c.a -o target/saved && target/saved
 */
#include <inttypes.h>
#include <stdio.h>
#include <stdlib.h>
#include <string.h>

#include "ferigulan.h"

#define WORDS 256
#define MORE_WORDS 1000
#define LABEL "lift 3"

/* Just as many bytes as the largest file of a store in WORDS words needs. */
#define BYTES FERIGULAN_FILE_LENGTH(FERIGULAN_LONGEST_LABEL, WORDS)

static uint64_t words[WORDS];
static uint64_t loaded[MORE_WORDS];
static uint64_t before[MORE_WORDS];
static uint8_t bytes[BYTES];

static void fail(const char *what)
{
    fprintf(stderr, "catalogue: %s\n", what);
    exit(EXIT_FAILURE);
}

/* A call that has to be accepted: says which one was not, and ends the program. */
static void must(uint32_t status, const char *call)
{
    if (status != FERIGULAN_ACCEPTED) {
        fprintf(stderr, "catalogue: %s was refused with %" PRIu32 "\n", call, status);
        exit(EXIT_FAILURE);
    }
}

static uint64_t name(const char *text)
{
    uint64_t handle = 0;
    must(ferigulan_get_str(words, WORDS, (const uint8_t *)text, strlen(text), &handle), "get_str");
    return handle;
}

/* A struct of two fields: each is its name, its type, its alias, and 1 if it is final. */
static uint64_t ride(uint64_t counter)
{
    uint64_t handle = 0;
    uint64_t fields[2 * FERIGULAN_FIELD_WORDS];
    fields[0] = name("round");
    fields[1] = counter;
    fields[2] = 1;
    fields[3] = 0;
    fields[4] = name("serial");
    fields[5] = FERIGULAN_INT_BOT;
    fields[6] = 2;
    fields[7] = 1;
    must(ferigulan_get_struct(words, WORDS, name("Ride"), fields, sizeof fields / sizeof fields[0], &handle),
        "get_struct");
    return handle;
}

/* Writes the store's file: the library makes the bytes, the program puts them where it wants. */
static void save(FILE *file)
{
    uint64_t length = 0;
    must(ferigulan_save(words, WORDS, (const uint8_t *)LABEL, strlen(LABEL), bytes, BYTES, &length), "save");
    if (fwrite(bytes, 1, (size_t)length, file) != length || fflush(file) != 0)
        fail("the file cannot be written");
    printf("saved: %" PRIu64 " bytes, of %" PRIu64 " words used\n", length, words[0]);
}

/* Loads what is in the file into a list, whatever stood in it, and answers the file's length. */
static size_t load(FILE *file)
{
    uint64_t label = 0;
    size_t length;
    rewind(file);
    memset(bytes, 0, BYTES);
    length = fread(bytes, 1, BYTES, file);
    if (ferror(file))
        fail("the file cannot be read");
    must(ferigulan_load(loaded, MORE_WORDS, bytes, length, &label), "load");
    printf("loaded: label \"%.*s\", %" PRIu64 " of %d words used\n", (int)label, (const char *)bytes, loaded[0],
        MORE_WORDS);
    return length;
}

/* A file that may be a bad one: the list keeps its words where it is. */
static void try_load(const char *what, uint64_t *list, size_t n, size_t length)
{
    uint64_t label = 0;
    uint32_t status;
    memcpy(before, list, n * sizeof list[0]);
    status = ferigulan_load(list, n, bytes, length, &label);
    printf("%s: ", what);
    switch (status) {
    case FERIGULAN_ACCEPTED:
        printf("loaded\n");
        return;
    case FERIGULAN_BAD_TRAILER:
        printf("refused, the trailer does not fit the length");
        break;
    case FERIGULAN_BAD_WORDS:
        printf("refused, the words form no store, or one with two equal entries");
        break;
    case FERIGULAN_NO_ROOM:
        printf("refused, the list is too short");
        break;
    default:
        must(status, "load");
    }
    printf("; the list %s\n", memcmp(before, list, n * sizeof list[0]) == 0 ? "keeps its words" : "was written");
}

/* What both stores answer: the loaded one goes on as the other does. */
static void compare(uint64_t counter, uint64_t structure)
{
    uint64_t eight[2] = {0, 0}, merged[2] = {0, 0}, at[2] = {0, 0};
    must(ferigulan_get_int(words, WORDS, 8, &eight[0]), "get_int");
    must(ferigulan_get_int(loaded, MORE_WORDS, 8, &eight[1]), "get_int");
    must(ferigulan_meet(words, WORDS, counter, eight[0], &merged[0]), "meet");
    must(ferigulan_meet(loaded, MORE_WORDS, counter, eight[1], &merged[1]), "meet");
    printf("0..7 meet 8 has handle %" PRIu64 ", and %" PRIu64 " in the loaded store\n", merged[0], merged[1]);
    must(ferigulan_struct_name(words, WORDS, structure, &at[0]), "struct_name");
    must(ferigulan_struct_name(loaded, MORE_WORDS, structure, &at[1]), "struct_name");
    printf("the name of Ride has handle %" PRIu64 ", and %" PRIu64 " in the loaded store\n", at[0], at[1]);
}

int main(void)
{
    uint64_t counter = 0, structure;
    size_t length;
    FILE *file = tmpfile();
    if (file == NULL)
        fail("there is no file to write to");
    must(ferigulan_fresh(words, WORDS), "fresh");
    must(ferigulan_make_int(words, WORDS, 0, 7, &counter), "make_int");
    structure = ride(counter);
    save(file);
    length = load(file);
    fclose(file);
    compare(counter, structure);
    try_load("the file without its last byte", loaded, MORE_WORDS, length - 1);
    try_load("a list of 100 words", loaded, 100, length);
    bytes[strlen(LABEL)] ^= 2;
    try_load("the file with another first entry", loaded, MORE_WORDS, length);
    return EXIT_SUCCESS;
}
