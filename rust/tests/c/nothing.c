/* A slice of no elements may be NULL: every call answers as it does for a pointer to something and length 0, and stores the same. */
#include <stdio.h>
#include <stdlib.h>
#include <string.h>

#include "ed2k.h"

/* What a call is lent to write. */
static struct {
    uint64_t fields[ED2K_FIELDS], why[ED2K_WHY_NUMBERS], gaps[ED2K_GAP_NUMBERS], missing;
    size_t written;
    uint8_t output[256], truth;
} lent, before;

/* A slice of no bytes and one of no numbers: a pointer to something, then NULL. */
static uint8_t *none;
static uint64_t *no_numbers;
static unsigned tried;

static void fill(void)
{
    memset(&lent, 0x5a, sizeof lent);
    if (ed2k_all_missing(100, lent.gaps, ED2K_GAP_NUMBERS) != ED2K_ACCEPTED)
        exit(1);
}

static void check(const char *call, uint8_t number, uint8_t expected)
{
    tried++;
    if (number == expected)
        return;
    fprintf(stderr, "%s with %s: %u instead of %u\n", call, none ? "a pointer" : "NULL", number, expected);
    exit(1);
}

#define TRY(expected, call)                                     \
    do {                                                        \
        static uint8_t something = 0x5a;                        \
        static uint64_t some_number = 0x5a;                     \
        none = &something, no_numbers = &some_number, fill();   \
        check(#call, call, expected);                           \
        memcpy(&before, &lent, sizeof lent);                    \
        none = NULL, no_numbers = NULL, fill();                 \
        check(#call, call, expected);                           \
        if (memcmp(&before, &lent, sizeof lent) != 0) {         \
            fprintf(stderr, "%s stores something else\n", #call); \
            exit(1);                                            \
        }                                                       \
    } while (0)

/* Slices of the arrays above, and where a length goes. */
#define FIELDS lent.fields, ED2K_FIELDS
#define WHY lent.why, ED2K_WHY_NUMBERS
#define GAPS lent.gaps, ED2K_GAP_NUMBERS
#define OUTPUT lent.output, sizeof lent.output, &lent.written
#define NO_OUTPUT none, 0, &lent.written
#define NONE none, 0
#define NO_NUMBERS no_numbers, 0
#define BYTES(array) array, sizeof array

static const uint8_t status[] = {0xe3, 9, 0, 0, 0, 0x34, 3, 0, 0, 0, 5, 0, 0, 0};
static const uint8_t tag[] = {3, 1, 0, 2, 100, 0, 0, 0};
static const uint8_t tags[] = {1, 0, 0, 0, 3, 1, 0, 2, 100, 0, 0, 0};
static const uint8_t keyword[] = {1, 1, 0, 'a'};
static const uint8_t name[] = {2};
/* Date, hash, no part hashes, the size tag: an entry of a known.met, and after E0 a part.met of 100 bytes. */
static const uint8_t part[] = {0xe0, 0, 0, 0, 0, 7, 7, 7, 7, 7, 7, 7, 7, 7, 7, 7, 7, 7,
                               7,    7, 7, 0, 0, 1, 0, 0, 0, 3, 1, 0, 2, 100, 0, 0, 0};
/* The same with a later date: a changed file. */
static const uint8_t later[] = {0xe0, 1, 0, 0, 0, 7, 7, 7, 7, 7, 7, 7, 7, 7, 7, 7, 7, 7,
                                7,    7, 7, 0, 0, 1, 0, 0, 0, 3, 1, 0, 2, 100, 0, 0, 0};

static void readers(void)
{
    for (uint8_t kind = ED2K_SERVER_LINK; kind <= ED2K_LONE_TAGS; kind++)
        TRY(ED2K_REFUSED_SHORT, ed2k_read(kind, NONE, FIELDS));
    TRY(ED2K_REFUSED_KIND, ed2k_read(200, NONE, FIELDS));
    TRY(ED2K_REFUSED_ROOM, ed2k_read(ED2K_SERVER_LINK, BYTES(status), NO_NUMBERS));
    TRY(ED2K_REFUSED_SHORT, ed2k_read(ED2K_SERVER_LINK, NONE, NO_NUMBERS));

    for (size_t at = 0; at < 3; at++) {
        TRY(ED2K_REFUSED_SHORT, ed2k_read_tag(NONE, at, FIELDS));
        TRY(ED2K_REFUSED_SHORT, ed2k_read_address(NONE, at, FIELDS));
        TRY(ED2K_REFUSED_SHORT, ed2k_read_record(NONE, at, FIELDS));
        TRY(ED2K_REFUSED_SHORT, ed2k_read_file_entry(NONE, at, FIELDS));
        TRY(ED2K_REFUSED_SHORT, ed2k_read_server_entry(NONE, at, FIELDS));
        TRY(ED2K_REFUSED_SHORT, ed2k_read_query_node(NONE, at, FIELDS));
    }
    TRY(ED2K_REFUSED_ROOM, ed2k_read_tag(BYTES(tag), 0, NO_NUMBERS));
    TRY(ED2K_REFUSED_ROOM, ed2k_read_address(BYTES(tag), 0, NO_NUMBERS));
    TRY(ED2K_REFUSED_ROOM, ed2k_read_file_entry(BYTES(part), 1, NO_NUMBERS));
    TRY(ED2K_REFUSED_ROOM, ed2k_read_query_node(BYTES(keyword), 0, NO_NUMBERS));
    /* 22 bytes before the tag list, as any; 6 before one. */
    TRY(ED2K_REFUSED_ROOM, ed2k_read_record(BYTES(part), 1, NO_NUMBERS));
    TRY(ED2K_REFUSED_ROOM, ed2k_read_server_entry(BYTES(part), 17, NO_NUMBERS));
}

static void reasons(void)
{
    for (uint8_t link = ED2K_SERVER_LINK; link <= ED2K_UDP_LINK; link++) {
        TRY(ED2K_ACCEPTED, ed2k_why(link, NONE, WHY));
        TRY(ED2K_REFUSED_ROOM, ed2k_why(link, BYTES(status), NO_NUMBERS));
        TRY(ED2K_REFUSED_ROOM, ed2k_why(link, NONE, NO_NUMBERS));
    }
    for (uint8_t kind = ED2K_KNOWN_MET; kind <= ED2K_LONE_TAGS; kind++)
        TRY(ED2K_REFUSED_KIND, ed2k_why(kind, NONE, NO_NUMBERS));
    TRY(ED2K_REFUSED_KIND, ed2k_why(200, NONE, WHY));
}

static void gap_records(void)
{
    TRY(ED2K_REFUSED_SHORT, ed2k_read_gaps(NONE, GAPS));
    TRY(ED2K_REFUSED_ROOM, ed2k_read_gaps(BYTES(part), NO_NUMBERS));
    TRY(ED2K_REFUSED_ROOM, ed2k_all_missing(100, NO_NUMBERS));
    TRY(ED2K_REFUSED_RANGE, ed2k_count_missing(NO_NUMBERS, &lent.missing));
    TRY(ED2K_REFUSED_RANGE, ed2k_mark(NO_NUMBERS, 0, 1, &lent.missing));
    TRY(ED2K_REFUSED_SHORT, ed2k_put_gaps(NONE, GAPS, OUTPUT));
    TRY(ED2K_REFUSED_RANGE, ed2k_put_gaps(BYTES(part), NO_NUMBERS, OUTPUT));
    TRY(ED2K_REFUSED_ROOM, ed2k_put_gaps(BYTES(part), GAPS, NO_OUTPUT));
    TRY(ED2K_REFUSED_SHORT, ed2k_put_gaps(NONE, NO_NUMBERS, NO_OUTPUT));
}

static void saves(void)
{
    TRY(ED2K_ACCEPTED, ed2k_save(NONE, NONE, BYTES(part), OUTPUT)); /* a first save */
    TRY(ED2K_REFUSED_SHORT, ed2k_save(BYTES(part), NONE, BYTES(part), OUTPUT));
    TRY(ED2K_REFUSED_SHORT, ed2k_save(NONE, BYTES(part), BYTES(part), OUTPUT));
    TRY(ED2K_REFUSED_SHORT, ed2k_save(BYTES(part), BYTES(part), NONE, OUTPUT));
    TRY(ED2K_REFUSED_SHORT, ed2k_save(BYTES(later), BYTES(part), NONE, OUTPUT));
    TRY(ED2K_REFUSED_ROOM, ed2k_save(NONE, NONE, BYTES(part), NO_OUTPUT));
    TRY(ED2K_REFUSED_ROOM, ed2k_save(BYTES(later), BYTES(part), BYTES(part), NO_OUTPUT));
    TRY(ED2K_REFUSED_SHORT, ed2k_save(NONE, NONE, NONE, NO_OUTPUT));
}

static void strict_saves(void)
{
    TRY(ED2K_ACCEPTED, ed2k_save_strict(NONE, NONE, BYTES(part), OUTPUT)); /* a first save */
    TRY(ED2K_REFUSED_CONFLICT, ed2k_save_strict(BYTES(part), NONE, BYTES(part), OUTPUT));
    TRY(ED2K_REFUSED_CONFLICT, ed2k_save_strict(NONE, BYTES(part), BYTES(part), OUTPUT));
    TRY(ED2K_REFUSED_SHORT, ed2k_save_strict(BYTES(part), BYTES(part), NONE, OUTPUT));
    TRY(ED2K_REFUSED_ROOM, ed2k_save_strict(NONE, NONE, BYTES(part), NO_OUTPUT));
    TRY(ED2K_REFUSED_SHORT, ed2k_save_strict(NONE, NONE, NONE, NO_OUTPUT));
}

static void merges(void)
{
    TRY(ED2K_REFUSED_SHORT, ed2k_merge(NONE, BYTES(part), BYTES(part), OUTPUT));
    TRY(ED2K_REFUSED_SHORT, ed2k_merge(BYTES(part), NONE, BYTES(part), OUTPUT));
    TRY(ED2K_REFUSED_SHORT, ed2k_merge(BYTES(part), BYTES(part), NONE, OUTPUT));
    TRY(ED2K_REFUSED_ROOM, ed2k_merge(BYTES(part), BYTES(part), BYTES(part), NO_OUTPUT));
    TRY(ED2K_REFUSED_SHORT, ed2k_merge(NONE, NONE, NONE, NO_OUTPUT));
}

static void queries(void)
{
    TRY(ED2K_REFUSED_SHORT, ed2k_truth(NONE, BYTES(tags), &lent.truth));
    TRY(ED2K_REFUSED_SHORT, ed2k_truth(BYTES(keyword), NONE, &lent.truth));
    TRY(ED2K_REFUSED_SHORT, ed2k_truth(NONE, NONE, &lent.truth));
    TRY(ED2K_ACCEPTED, ed2k_write_keyword(NONE, OUTPUT));
    TRY(ED2K_REFUSED_ROOM, ed2k_write_keyword(BYTES(name), NO_OUTPUT));
    TRY(ED2K_REFUSED_ROOM, ed2k_write_keyword(NONE, NO_OUTPUT));
    TRY(ED2K_ACCEPTED, ed2k_write_field(NONE, BYTES(name), OUTPUT));
    TRY(ED2K_REFUSED_CHOICE, ed2k_write_field(BYTES(name), NONE, OUTPUT));
    TRY(ED2K_REFUSED_ROOM, ed2k_write_field(BYTES(name), BYTES(name), NO_OUTPUT));
    TRY(ED2K_REFUSED_CHOICE, ed2k_write_field(NONE, NONE, NO_OUTPUT));
    TRY(ED2K_REFUSED_CHOICE, ed2k_write_limit(1, ED2K_BOUND_MIN, NONE, OUTPUT));
    TRY(ED2K_REFUSED_ROOM, ed2k_write_limit(1, ED2K_BOUND_MIN, BYTES(name), NO_OUTPUT));
    TRY(ED2K_REFUSED_CHOICE, ed2k_write_limit(1, ED2K_BOUND_MIN, NONE, NO_OUTPUT));
    TRY(ED2K_REFUSED_SHORT, ed2k_write_join(ED2K_OPERATOR_AND, NONE, BYTES(keyword), OUTPUT));
    TRY(ED2K_REFUSED_SHORT, ed2k_write_join(ED2K_OPERATOR_AND, BYTES(keyword), NONE, OUTPUT));
    TRY(ED2K_REFUSED_ROOM, ed2k_write_join(ED2K_OPERATOR_AND, BYTES(keyword), BYTES(keyword), NO_OUTPUT));
    TRY(ED2K_REFUSED_SHORT, ed2k_write_join(ED2K_OPERATOR_AND, NONE, NONE, NO_OUTPUT));
    TRY(ED2K_REFUSED_SHORT, ed2k_write_query(NONE, 0, OUTPUT));
    TRY(ED2K_REFUSED_SHORT, ed2k_write_query(NONE, 7, OUTPUT));
    TRY(ED2K_REFUSED_ROOM, ed2k_write_query(BYTES(keyword), 0, NO_OUTPUT));
}

static void tag_writers(void)
{
    TRY(ED2K_REFUSED_CHOICE, ed2k_write_text_tag(NONE, BYTES(name), OUTPUT));
    TRY(ED2K_ACCEPTED, ed2k_write_text_tag(BYTES(name), NONE, OUTPUT));
    TRY(ED2K_REFUSED_ROOM, ed2k_write_text_tag(BYTES(name), NONE, NO_OUTPUT));
    TRY(ED2K_REFUSED_CHOICE, ed2k_write_dword_tag(NONE, 7, OUTPUT));
    TRY(ED2K_REFUSED_ROOM, ed2k_write_dword_tag(BYTES(name), 7, NO_OUTPUT));
    TRY(ED2K_REFUSED_CHOICE, ed2k_write_float_tag(NONE, 7, OUTPUT));
    TRY(ED2K_REFUSED_ROOM, ed2k_write_float_tag(BYTES(name), 7, NO_OUTPUT));
    TRY(ED2K_REFUSED_CHOICE, ed2k_write_hash_tag(NONE, BYTES(part), OUTPUT));
    TRY(ED2K_REFUSED_SHORT, ed2k_write_hash_tag(BYTES(name), NONE, OUTPUT));
    TRY(ED2K_REFUSED_ROOM, ed2k_write_hash_tag(BYTES(name), BYTES(part), NO_OUTPUT));
    TRY(ED2K_ACCEPTED, ed2k_write_tag_list(NONE, 0, 0, OUTPUT));
    TRY(ED2K_REFUSED_SHORT, ed2k_write_tag_list(NONE, 0, 1, OUTPUT));
    TRY(ED2K_REFUSED_ROOM, ed2k_write_tag_list(NONE, 0, 0, NO_OUTPUT));
    TRY(ED2K_REFUSED_ROOM, ed2k_write_tag_list(BYTES(tag), 0, 1, NO_OUTPUT));
}

static void whole_writers(void)
{
    static const uint64_t get_list[ED2K_FIELDS] = {0xe3, 0x14, ED2K_BODY_NOTHING};
    static const uint64_t no_entries[ED2K_FIELDS] = {0x0e};
    static const uint64_t nothing[ED2K_FIELDS] = {0};
    TRY(ED2K_ACCEPTED, ed2k_write(ED2K_SERVER_LINK, NONE, get_list, ED2K_FIELDS, OUTPUT));
    TRY(ED2K_ACCEPTED, ed2k_write(ED2K_KNOWN_MET, NONE, no_entries, ED2K_FIELDS, OUTPUT));
    TRY(ED2K_ACCEPTED, ed2k_write(ED2K_SERVER_MET, NONE, no_entries, ED2K_FIELDS, OUTPUT));
    TRY(ED2K_ACCEPTED, ed2k_write(ED2K_LONE_TAGS, NONE, nothing, ED2K_FIELDS, OUTPUT));
    TRY(ED2K_REFUSED_SHORT, ed2k_write(ED2K_LONE_QUERY, NONE, nothing, ED2K_FIELDS, OUTPUT));
    TRY(ED2K_REFUSED_ROOM, ed2k_write(ED2K_LONE_TAGS, NONE, nothing, ED2K_FIELDS, NO_OUTPUT));
    for (uint8_t kind = ED2K_SERVER_LINK; kind <= ED2K_LONE_TAGS; kind++) {
        TRY(ED2K_REFUSED_CHOICE, ed2k_write(kind, BYTES(part), NO_NUMBERS, OUTPUT));
        TRY(ED2K_REFUSED_CHOICE, ed2k_write(kind, NONE, NO_NUMBERS, NO_OUTPUT));
    }
    TRY(ED2K_REFUSED_ROOM, ed2k_write_address(1, 2, NO_OUTPUT));
    TRY(ED2K_REFUSED_SHORT, ed2k_write_record(NONE, 0, 1, 2, 0, 0, OUTPUT));
    TRY(ED2K_REFUSED_ROOM, ed2k_write_record(BYTES(part), 0, 1, 2, 0, 0, NO_OUTPUT));
    TRY(ED2K_REFUSED_SHORT, ed2k_write_file_entry(NONE, 0, 0, 0, 0, 0, 0, OUTPUT));
    TRY(ED2K_REFUSED_ROOM, ed2k_write_file_entry(BYTES(part), 0, 0, 0, 0, 0, 0, NO_OUTPUT));
    TRY(ED2K_ACCEPTED, ed2k_write_server_entry(NONE, 1, 2, 0, 0, OUTPUT));
    TRY(ED2K_REFUSED_ROOM, ed2k_write_server_entry(NONE, 1, 2, 0, 0, NO_OUTPUT));
}

int main(void)
{
    readers();
    reasons();
    gap_records();
    saves();
    strict_saves();
    merges();
    queries();
    tag_writers();
    whole_writers();
    printf("%u calls answered\n", tried);
    return 0;
}
