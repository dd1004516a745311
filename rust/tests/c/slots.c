/* Prints a packet, file, query or tag list by the names that ed2k.h has for its values. The kind's number is the argument, the bytes
 * are standard input. A hash is printed by its first byte. */
#include <inttypes.h>
#include <stdio.h>
#include <stdlib.h>

#include "ed2k.h"

static uint8_t bytes[1 << 20];
static size_t length;

static void number(const char *name, uint64_t value)
{
    printf("%s %" PRIu64 "\n", name, value);
}

static void hash(const char *name, uint64_t at)
{
    printf("%s %02X\n", name, bytes[at]);
}

static void text(const char *name, const uint64_t *value)
{
    printf("%s '%.*s'\n", name, (int)value[ED2K_TEXT_LENGTH], (const char *)bytes + value[ED2K_TEXT_AT]);
}

static void address(const char *name, const uint64_t *value)
{
    uint64_t ip = value[ED2K_ADDRESS_IP];
    printf("%s %d.%d.%d.%d:%" PRIu64 "\n", name, (int)(ip & 255), (int)(ip >> 8 & 255), (int)(ip >> 16 & 255), (int)(ip >> 24),
           value[ED2K_ADDRESS_PORT]);
}

/* Reads the items of a list one by one; the last must end where the list does. */
typedef uint8_t item_reader(const uint8_t *, size_t, size_t, uint64_t *, size_t);

static void each(const uint64_t *list, item_reader *read, void (*print)(const uint64_t *))
{
    uint64_t item[ED2K_FIELDS];
    size_t at = list[ED2K_LIST_AT];
    number("count", list[ED2K_LIST_COUNT]);
    for (uint64_t left = list[ED2K_LIST_COUNT]; left > 0; left--) {
        if (read(bytes, length, at, item, ED2K_FIELDS) != ED2K_ACCEPTED)
            exit(1);
        print(item);
        at = item[ED2K_ITEM_NEXT];
    }
    if (at != list[ED2K_LIST_END])
        exit(1);
}

static void print_tag(const uint64_t *item)
{
    const uint64_t *value = item + ED2K_ITEM_TAG_VALUE;
    printf("tag %02X.. of %" PRIu64 ": ", bytes[item[ED2K_ITEM_TAG_NAME + ED2K_TEXT_AT]], item[ED2K_ITEM_TAG_NAME + ED2K_TEXT_LENGTH]);
    switch (item[ED2K_ITEM_TAG_TYPE]) {
    case ED2K_TAG_HASH:
        hash("HASH", value[ED2K_TEXT_AT]);
        break;
    case ED2K_TAG_TEXT:
        text("String", value);
        break;
    case ED2K_TAG_DWORD:
        number("DWORD", *value);
        break;
    case ED2K_TAG_FLOAT:
        number("FLOAT", *value);
        break;
    }
}

static void tags(const uint64_t *list)
{
    each(list, ed2k_read_tag, print_tag);
}

static void print_address(const uint64_t *item)
{
    address("address", item + ED2K_ITEM_ADDRESS);
}

static void print_record(const uint64_t *item)
{
    hash("hash", item[ED2K_ITEM_RECORD_HASH]);
    number("client", item[ED2K_ITEM_RECORD_CLIENT]);
    number("port", item[ED2K_ITEM_RECORD_PORT]);
    tags(item + ED2K_ITEM_RECORD_TAGS);
}

/* Hashes have no call of their own: they are one after the other. */
static void hashes(const uint64_t *list, size_t size)
{
    number("count", list[ED2K_LIST_COUNT]);
    for (uint64_t at = list[ED2K_LIST_AT]; at < list[ED2K_LIST_END]; at += size)
        hash("hash", at);
}

static void print_file(const uint64_t *item)
{
    number("date", item[ED2K_ITEM_FILE_DATE]);
    hash("hash", item[ED2K_ITEM_FILE_HASH]);
    hashes(item + ED2K_ITEM_FILE_PART_HASHES, 16);
    tags(item + ED2K_ITEM_FILE_TAGS);
}

static void print_server(const uint64_t *item)
{
    address("server", item + ED2K_ITEM_SERVER_ADDRESS);
    tags(item + ED2K_ITEM_SERVER_TAGS);
}

/* The query at an offset; the offset after it. */
static size_t print_query(size_t at)
{
    uint64_t node[ED2K_FIELDS];
    if (ed2k_read_query_node(bytes, length, at, node, ED2K_FIELDS) != ED2K_ACCEPTED)
        exit(1);
    switch (node[ED2K_ITEM_NODE_CASE]) {
    case ED2K_NODE_JOIN:
        puts(node[ED2K_ITEM_NODE_OPERATOR] == ED2K_OPERATOR_AND  ? "and"
             : node[ED2K_ITEM_NODE_OPERATOR] == ED2K_OPERATOR_OR ? "or"
                                                                 : "and not");
        return print_query(print_query(node[ED2K_ITEM_NEXT]));
    case ED2K_NODE_KEYWORD:
        text("keyword", node + ED2K_ITEM_NODE_TEXT);
        break;
    case ED2K_NODE_FIELD:
        text("field", node + ED2K_ITEM_NODE_TEXT);
        hash("name", node[ED2K_ITEM_NODE_NAME]);
        break;
    case ED2K_NODE_LIMIT:
        number(node[ED2K_ITEM_NODE_BOUND] == ED2K_BOUND_MIN ? "min" : "max", node[ED2K_ITEM_NODE_NUMBER]);
        hash("name", node[ED2K_ITEM_NODE_NAME]);
        break;
    }
    return node[ED2K_ITEM_NEXT];
}

static void query(const uint64_t *value)
{
    number("depth", value[ED2K_QUERY_DEPTH]);
    if (print_query(value[ED2K_QUERY_AT]) != value[ED2K_QUERY_END])
        exit(1);
}

static void record(const uint64_t *fields)
{
    hash("hash", fields[ED2K_FIELD_HASH]);
    number("client", fields[ED2K_FIELD_RECORD_CLIENT]);
    number("port", fields[ED2K_FIELD_RECORD_PORT]);
    tags(fields + ED2K_FIELD_RECORD_TAGS);
}

static void numbers(const char *name, const uint64_t *value, int count)
{
    while (count-- > 0)
        number(name, *value++);
}

static void packet(const uint64_t *fields)
{
    printf("opening %02X opcode %02X\n", (unsigned)fields[ED2K_FIELD_OPENING], (unsigned)fields[ED2K_FIELD_OPCODE]);
    switch (fields[ED2K_FIELD_SHAPE]) {
    case ED2K_BODY_NOTHING:
        break;
    case ED2K_BODY_QUERY:
        query(fields + ED2K_FIELD_QUERY);
        break;
    case ED2K_BODY_HASH:
        hash("hash", fields[ED2K_FIELD_HASH]);
        break;
    case ED2K_BODY_DWORD:
        number("number", fields[ED2K_FIELD_DWORD]);
        break;
    case ED2K_BODY_TWO_DWORDS:
        numbers("number", fields + ED2K_FIELD_TWO_DWORDS, 2);
        break;
    case ED2K_BODY_TEXT:
        text("text", fields + ED2K_FIELD_TEXT);
        break;
    case ED2K_BODY_TWO_TEXTS:
        text("first", fields + ED2K_FIELD_FIRST_TEXT);
        text("second", fields + ED2K_FIELD_SECOND_TEXT);
        break;
    case ED2K_BODY_ADDRESS:
        address("address", fields + ED2K_FIELD_ADDRESS);
        break;
    case ED2K_BODY_ADDRESSES:
        each(fields + ED2K_FIELD_ADDRESSES, ed2k_read_address, print_address);
        break;
    case ED2K_BODY_HASH_ADDRESSES:
        hash("hash", fields[ED2K_FIELD_HASH]);
        each(fields + ED2K_FIELD_HASH_ADDRESSES, ed2k_read_address, print_address);
        break;
    case ED2K_BODY_ADDRESS_DWORD:
        address("address", fields + ED2K_FIELD_ADDRESS_DWORD_ADDRESS);
        number("number", fields[ED2K_FIELD_ADDRESS_DWORD_DWORD]);
        break;
    case ED2K_BODY_HASH_ADDRESS_TAGS:
        hash("hash", fields[ED2K_FIELD_HASH]);
        address("address", fields + ED2K_FIELD_HASH_ADDRESS_TAGS_ADDRESS);
        tags(fields + ED2K_FIELD_HASH_ADDRESS_TAGS_TAGS);
        break;
    case ED2K_BODY_RECORD:
        record(fields);
        break;
    case ED2K_BODY_RECORDS:
        each(fields + ED2K_FIELD_RECORDS, ed2k_read_record, print_record);
        break;
    case ED2K_BODY_RECORDS_FLAG:
        each(fields + ED2K_FIELD_RECORDS, ed2k_read_record, print_record);
        number("flag", fields[ED2K_FIELD_RECORDS_FLAG]);
        break;
    case ED2K_BODY_RECORD_ADDRESS:
    case ED2K_BODY_HELLO:
        record(fields);
        address("address", fields + ED2K_FIELD_RECORD_ADDRESS);
        break;
    case ED2K_BODY_HASH_TEXT:
        hash("hash", fields[ED2K_FIELD_HASH]);
        text("text", fields + ED2K_FIELD_HASH_TEXT);
        break;
    case ED2K_BODY_HASHSET:
        hash("hash", fields[ED2K_FIELD_HASH]);
        hashes(fields + ED2K_FIELD_HASHSET, 16);
        break;
    case ED2K_BODY_SENDING_PART:
        hash("hash", fields[ED2K_FIELD_HASH]);
        number("start", fields[ED2K_FIELD_SENDING_PART_START]);
        number("end", fields[ED2K_FIELD_SENDING_PART_END]);
        text("data", fields + ED2K_FIELD_SENDING_PART_DATA);
        break;
    case ED2K_BODY_REQUEST_PARTS:
        hash("hash", fields[ED2K_FIELD_HASH]);
        numbers("start", fields + ED2K_FIELD_REQUEST_PARTS_STARTS, 3);
        numbers("end", fields + ED2K_FIELD_REQUEST_PARTS_ENDS, 3);
        break;
    case ED2K_BODY_FILE_STATUS:
        hash("hash", fields[ED2K_FIELD_HASH]);
        number("parts", fields[ED2K_FIELD_FILE_STATUS_PARTS]);
        hash("bits", fields[ED2K_FIELD_FILE_STATUS_BITS]);
        break;
    case ED2K_BODY_STATUS_REQUEST:
        number("extended", fields[ED2K_FIELD_STATUS_REQUEST_EXTENDED]);
        number("number", fields[ED2K_FIELD_STATUS_REQUEST_DWORD]);
        break;
    case ED2K_BODY_STATUS:
        number("number", fields[ED2K_FIELD_STATUS_DWORD]);
        number("users", fields[ED2K_FIELD_STATUS_USERS]);
        number("files", fields[ED2K_FIELD_STATUS_FILES]);
        break;
    case ED2K_BODY_EXTENDED_STATUS:
        numbers("byte", fields + ED2K_FIELD_EXTENDED_STATUS_BYTES, 2);
        number("users", fields[ED2K_FIELD_EXTENDED_STATUS_USERS]);
        number("files", fields[ED2K_FIELD_EXTENDED_STATUS_FILES]);
        number("most", fields[ED2K_FIELD_EXTENDED_STATUS_USERS_MAX]);
        break;
    default:
        exit(1);
    }
}

static void part_met(const uint64_t *fields)
{
    number("size", fields[ED2K_FIELD_PART_SIZE]);
    number("date", fields[ED2K_FIELD_PART_DATE]);
    hash("hash", fields[ED2K_FIELD_PART_HASH]);
    tags(fields + ED2K_FIELD_PART_TAGS);
    uint64_t lists = fields[ED2K_FIELD_PART_HASH_LISTS];
    if (lists == ED2K_HASHES_PARTS || lists == ED2K_HASHES_BOTH || lists == ED2K_HASHES_COUNTED)
        hashes(fields + ED2K_FIELD_PART_HASHES, 16);
    if (lists == ED2K_HASHES_BLOCKS || lists == ED2K_HASHES_BOTH)
        hashes(fields + ED2K_FIELD_PART_BLOCK_HASHES, 8);
    uint64_t gaps[ED2K_GAP_NUMBERS];
    if (ed2k_read_gaps(bytes, length, gaps, ED2K_GAP_NUMBERS) != ED2K_ACCEPTED || gaps[ED2K_GAPS_SIZE] != fields[ED2K_FIELD_PART_SIZE])
        exit(1);
    for (uint64_t gap = 0; gap < gaps[ED2K_GAPS_COUNT]; gap++)
        numbers("gap", gaps + ED2K_GAPS_FIRST + 2 * gap, 2);
}

int main(int count, char **words)
{
    if (count != 2)
        return 2;
    uint8_t kind = (uint8_t)atoi(words[1]);
    uint64_t fields[ED2K_FIELDS];
    length = fread(bytes, 1, sizeof bytes, stdin);
    uint8_t answer = ed2k_read(kind, bytes, length, fields, ED2K_FIELDS);
    if (answer != ED2K_ACCEPTED) {
        printf("refused %u: %s\n", answer, ed2k_meaning(answer));
        return 0;
    }
    switch (kind) {
    case ED2K_SERVER_LINK:
    case ED2K_CLIENT_LINK:
    case ED2K_UDP_LINK:
        packet(fields);
        break;
    case ED2K_KNOWN_MET:
        printf("opening %02X\n", (unsigned)fields[ED2K_FIELD_OPENING]);
        each(fields + ED2K_FIELD_KNOWN_ENTRIES, ed2k_read_file_entry, print_file);
        break;
    case ED2K_SERVER_MET:
        printf("opening %02X\n", (unsigned)fields[ED2K_FIELD_OPENING]);
        each(fields + ED2K_FIELD_SERVER_ENTRIES, ed2k_read_server_entry, print_server);
        text("tail", fields + ED2K_FIELD_SERVER_TAIL);
        break;
    case ED2K_PART_MET:
        printf("opening %02X\n", (unsigned)fields[ED2K_FIELD_OPENING]);
        part_met(fields);
        break;
    case ED2K_LONE_QUERY:
        query(fields + ED2K_FIELD_LONE_QUERY);
        break;
    case ED2K_LONE_TAGS:
        tags(fields + ED2K_FIELD_LONE_TAGS);
        break;
    }
    return 0;
}
