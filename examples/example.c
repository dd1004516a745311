/* A tour of the library: a packet is read, a refusal is explained, a query is composed and evaluated on a tag list, an offer of two files
 * is composed and read back, arrived bytes are marked, and two saves of one model are merged. */
#include <inttypes.h>
#include <stdio.h>
#include <string.h>

#include "ed2k.h"

/* The bytes of a text, as the calls take them: a pointer and a length. */
#define TEXT(t) (const uint8_t *)(t), sizeof(t) - 1

static void read_status(void)
{
    static const uint8_t packet[] = {0xe3, 9, 0, 0, 0, 0x34, 3, 0, 0, 0, 5, 0, 0, 0};
    uint64_t fields[ED2K_FIELDS] = {0};
    uint8_t number = ed2k_read(ED2K_SERVER_LINK, packet, sizeof packet, fields, ED2K_FIELDS);
    printf("server status: number %u, opcode 0x%02" PRIX64 ", shape %" PRIu64 ", users %" PRIu64 ", files %" PRIu64 "\n", number,
           fields[ED2K_FIELD_OPCODE], fields[ED2K_FIELD_SHAPE], fields[ED2K_FIELD_TWO_DWORDS], fields[ED2K_FIELD_TWO_DWORDS + 1]);
    number = ed2k_read(ED2K_SERVER_LINK, packet, sizeof packet - 1, fields, ED2K_FIELDS);
    printf("one byte less: number %u, %s\n", number, ed2k_meaning(number));
}

/* The same packet with a byte too many: which rule it breaks, and where. */
static void explain_refusal(void)
{
    static const uint8_t packet[] = {0xe3, 10, 0, 0, 0, 0x34, 3, 0, 0, 0, 5, 0, 0, 0, 0};
    uint64_t why[ED2K_WHY_NUMBERS] = {0};
    uint8_t number = ed2k_why(ED2K_SERVER_LINK, packet, sizeof packet, why, ED2K_WHY_NUMBERS);
    printf("one byte more: number %u, refused %" PRIu64 " at offset %" PRIu64 ", %s\n", number, why[ED2K_WHY_ANSWER],
           why[ED2K_WHY_OFFSET], ed2k_rule_meaning(why[ED2K_WHY_RULE]));
}

/* The query "last" AND (size at least 1000), in `query`; how many bytes it has. */
static size_t compose_query(uint8_t *query, size_t room)
{
    uint8_t keyword[64], limit[64];
    size_t keyword_length, limit_length, length = 0;
    uint8_t number = ed2k_write_keyword(TEXT("last"), keyword, sizeof keyword, &keyword_length);
    if (number == ED2K_ACCEPTED)
        number = ed2k_write_limit(1000, ED2K_BOUND_MIN, TEXT("\x02"), limit, sizeof limit, &limit_length);
    if (number == ED2K_ACCEPTED)
        number = ed2k_write_join(ED2K_OPERATOR_AND, keyword, keyword_length, limit, limit_length, query, room, &length);
    printf("query: number %u, %zu bytes\n", number, length);
    return length;
}

/* The tags of a name and a size, one after the other in `tags`; how many bytes they have. */
static size_t compose_two_tags(const char *name, uint32_t size, uint8_t *tags, size_t room)
{
    size_t name_length, size_length;
    const uint8_t *text = (const uint8_t *)name;
    uint8_t number = ed2k_write_text_tag(TEXT("\x01"), text, strlen(name), tags, room, &name_length);
    if (number == ED2K_ACCEPTED)
        number = ed2k_write_dword_tag(TEXT("\x02"), size, tags + name_length, room - name_length, &size_length);
    return number == ED2K_ACCEPTED ? name_length + size_length : 0;
}

/* A tag list of a name and a size, in `list`; how many bytes it has. */
static size_t compose_tags(uint8_t *list, size_t room)
{
    uint8_t tags[128];
    size_t length;
    size_t tags_length = compose_two_tags("a shoe last", 4096, tags, sizeof tags);
    uint8_t number = ed2k_write_tag_list(tags, tags_length, 0, 2, list, room, &length);
    printf("tag list: number %u, %zu bytes\n", number, length);
    return length;
}

/* The tags of a list that was read. */
static void print_tags(const uint8_t *bytes, size_t length, const uint64_t *list)
{
    size_t at = list[ED2K_LIST_AT];
    for (uint64_t left = list[ED2K_LIST_COUNT]; left > 0; left--) {
        uint64_t tag[ED2K_FIELDS];
        if (ed2k_read_tag(bytes, length, at, tag, ED2K_FIELDS) != ED2K_ACCEPTED)
            return;
        const uint64_t *value = tag + ED2K_ITEM_TAG_VALUE;
        printf("  tag %02X: ", bytes[tag[ED2K_ITEM_TAG_NAME]]);
        switch (tag[ED2K_ITEM_TAG_TYPE]) {
        case ED2K_TAG_TEXT:
            printf("\"%.*s\"\n", (int)value[ED2K_TEXT_LENGTH], (const char *)bytes + value[ED2K_TEXT_AT]);
            break;
        case ED2K_TAG_DWORD:
            printf("%" PRIu64 "\n", *value);
            break;
        default:
            printf("of another type\n");
        }
        at = tag[ED2K_ITEM_NEXT];
    }
}

static void search(void)
{
    uint8_t query[128], list[128];
    size_t query_length = compose_query(query, sizeof query);
    size_t list_length = compose_tags(list, sizeof list);
    uint64_t fields[ED2K_FIELDS];
    if (ed2k_read(ED2K_LONE_TAGS, list, list_length, fields, ED2K_FIELDS) == ED2K_ACCEPTED)
        print_tags(list, list_length, fields + ED2K_FIELD_LONE_TAGS);
    uint8_t truth;
    uint8_t number = ed2k_truth(query, query_length, list, list_length, &truth);
    printf("query on tag list: number %u, truth %u\n", number, truth);
}

/* A file of this name and size, in `record`; how many bytes it has. The record's hash and tags are lent in one run of bytes. */
static size_t compose_record(uint8_t first, const char *name, uint32_t size, uint8_t *record, size_t room)
{
    uint8_t bytes[16 + 128] = {first};
    size_t length;
    size_t tags_length = compose_two_tags(name, size, bytes + 16, sizeof bytes - 16);
    uint8_t number = ed2k_write_record(bytes, 16 + tags_length, 0, 0, 4662, 16, 2, record, room, &length);
    printf("record: number %u, %zu bytes\n", number, length);
    return length;
}

/* An offer of two files (server link, 15), in `packet`; how many bytes it has. */
static size_t compose_offer(uint8_t *packet, size_t room)
{
    uint8_t records[256];
    size_t first = compose_record(0xaa, "left last.stl", 5000, records, sizeof records);
    size_t both = first + compose_record(0xbb, "right last.stl", 6000, records + first, sizeof records - first);
    const uint64_t fields[ED2K_FIELDS] = {0xe3, 0x15, ED2K_BODY_RECORDS, 0, both, 2};
    size_t length;
    uint8_t number = ed2k_write(ED2K_SERVER_LINK, records, both, fields, ED2K_FIELDS, packet, room, &length);
    printf("offer: number %u, %zu bytes\n", number, length);
    const uint64_t three[ED2K_FIELDS] = {0xe3, 0x15, ED2K_BODY_RECORDS, 0, both, 3};
    size_t none;
    number = ed2k_write(ED2K_SERVER_LINK, records, both, three, ED2K_FIELDS, packet, room, &none);
    printf("offer of three: number %u, %zu bytes\n", number, none);
    return length;
}

static void offer(void)
{
    uint8_t packet[256];
    uint64_t fields[ED2K_FIELDS];
    size_t length = compose_offer(packet, sizeof packet);
    if (ed2k_read(ED2K_SERVER_LINK, packet, length, fields, ED2K_FIELDS) != ED2K_ACCEPTED)
        return;
    const uint64_t *records = fields + ED2K_FIELD_RECORDS;
    size_t at = records[ED2K_LIST_AT];
    for (uint64_t left = records[ED2K_LIST_COUNT]; left > 0; left--) {
        uint64_t record[ED2K_FIELDS];
        if (ed2k_read_record(packet, length, at, record, ED2K_FIELDS) != ED2K_ACCEPTED)
            return;
        printf("file %02X.., port %" PRIu64 "\n", packet[record[ED2K_ITEM_RECORD_HASH]], record[ED2K_ITEM_RECORD_PORT]);
        print_tags(packet, length, record + ED2K_ITEM_RECORD_TAGS);
        at = record[ED2K_ITEM_NEXT];
    }
}

static void print_gaps(const uint64_t *gaps)
{
    const uint64_t *gap = gaps + ED2K_GAPS_FIRST;
    for (uint64_t left = gaps[ED2K_GAPS_COUNT]; left > 0; left--, gap += 2)
        printf("  gap %" PRIu64 " up to %" PRIu64 "\n", gap[0], gap[1]);
}

static void mark(void)
{
    uint64_t gaps[ED2K_GAP_NUMBERS];
    uint64_t missing;
    uint8_t number = ed2k_all_missing(1000, gaps, ED2K_GAP_NUMBERS);
    printf("all missing: number %u\n", number);
    number = ed2k_mark(gaps, ED2K_GAP_NUMBERS, 200, 500, &missing);
    printf("mark 200 up to 500: number %u, missing %" PRIu64 "\n", number, missing);
    print_gaps(gaps);
    number = ed2k_mark(gaps, ED2K_GAP_NUMBERS, 900, 1001, &missing);
    printf("mark 900 up to 1001: number %u, missing %" PRIu64 "\n", number, missing);
}

/* What a window wants to save that opened this part.met, and in which these bytes have arrived, in `saved`; how many bytes it has. */
static size_t save_of_window(const uint8_t *opened, size_t length, uint64_t start, uint64_t end, uint8_t *saved, size_t room)
{
    uint64_t gaps[ED2K_GAP_NUMBERS], missing;
    size_t saved_length = 0;
    uint8_t number = ed2k_read_gaps(opened, length, gaps, ED2K_GAP_NUMBERS);
    if (number == ED2K_ACCEPTED)
        number = ed2k_mark(gaps, ED2K_GAP_NUMBERS, start, end, &missing);
    if (number == ED2K_ACCEPTED)
        number = ed2k_put_gaps(opened, length, gaps, ED2K_GAP_NUMBERS, saved, room, &saved_length);
    printf("window with %" PRIu64 " up to %" PRIu64 ": number %u, %zu bytes\n", start, end, number, saved_length);
    return saved_length;
}

/* Two windows opened one part.met. Saving the one over the other would lose what arrived in the other: they are merged. */
static void merge(void)
{
    static const uint8_t opened[] = {
        0xe0, 0, 0, 0, 0,                               /* E0, date */
        7, 7, 7, 7, 7, 7, 7, 7, 7, 7, 7, 7, 7, 7, 7, 7, /* hash */
        0, 0, 3, 0, 0, 0,                               /* no part hashes, three tags */
        3, 1, 0, 0x02, 0xe8, 3, 0, 0,                   /* the size, 1000 */
        3, 2, 0, 0x09, '0', 0, 0, 0, 0,                 /* where the one gap begins */
        3, 2, 0, 0x0a, '0', 0xe8, 3, 0, 0               /* and ends */
    };
    uint8_t first[128], second[128], merged[384];
    size_t first_length = save_of_window(opened, sizeof opened, 0, 300, first, sizeof first);
    size_t second_length = save_of_window(opened, sizeof opened, 500, 700, second, sizeof second);
    size_t length;
    uint8_t number =
        ed2k_merge(opened, sizeof opened, first, first_length, second, second_length, merged, sizeof merged, &length);
    printf("merge: number %u, %zu bytes\n", number, length);
    uint64_t gaps[ED2K_GAP_NUMBERS];
    if (ed2k_read_gaps(merged, length, gaps, ED2K_GAP_NUMBERS) == ED2K_ACCEPTED)
        print_gaps(gaps);
    second[5] ^= 1; /* the file hash */
    number = ed2k_merge(opened, sizeof opened, first, first_length, second, second_length, merged, sizeof merged, &length);
    printf("another hash: number %u, %s\n", number, ed2k_meaning(number));
}

int main(void)
{
    read_status();
    explain_refusal();
    search();
    offer();
    mark();
    merge();
    return 0;
}
