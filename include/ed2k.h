/*
 * ed2k: packets, queries and met files of the eDonkey protocol, read, written, marked, saved and merged by proved code.
 *
 * Every call answers with a number: ED2K_ACCEPTED, or why it refuses (ED2K_REFUSED_.. below). A refused call leaves the arrays and
 * the output that it was lent as they were, and 0 in `written`, `missing` and `truth`; an accepted one changes nothing after what it
 * puts there. Any bytes, offsets and numbers may be given: they are checked by the call. No call keeps a pointer, allocates, or has state.
 *
 * A slice is a pointer and how many elements it has. Where it has none, the pointer may be NULL or any other: it is not followed. Else it
 * points to so many elements and is aligned for them. A pointer to a single number, as `written`, `missing` and `truth`, is never NULL.
 * What a call is lent to write, as `fields`, `output` and `written`, overlaps nothing else that it is lent.
 *
 * Names here keep their numbers. Later versions may add names, and numbers that are refused today may then be accepted: a program should
 * treat a refusal, rule, shape or type that it does not know as one that it has no use for.
 */
#ifndef ED2K_H
#define ED2K_H

#include <stddef.h>
#include <stdint.h>

#ifdef __cplusplus
extern "C" {
#endif

/* The numbers that calls answer with. */
enum {
    ED2K_ACCEPTED = 0,
    ED2K_REFUSED_SHORT = 1,     /* the bytes end before the item being read ends */
    ED2K_REFUSED_OPENING = 2,   /* the first byte is not one of this link's or file's */
    ED2K_REFUSED_LENGTH = 3,    /* the header's length is 0 or is not the number of bytes after the header */
    ED2K_REFUSED_KIND = 4,      /* the opcode is not listed for the link, or the kind is none of those below */
    ED2K_REFUSED_CHOICE = 5,    /* a byte is outside its list, an unused status bit is set, or a tag name has length 0 */
    ED2K_REFUSED_LIMIT = 6,     /* a ceiling is exceeded */
    ED2K_REFUSED_REST = 7,      /* bytes are left after the last item */
    ED2K_REFUSED_RANGE = 8,     /* a start, end or gap breaks its rule */
    ED2K_REFUSED_SIZE = 9,      /* a part.met has not exactly one size tag */
    ED2K_REFUSED_ROOM = 10,     /* the lent output is too small */
    ED2K_REFUSED_CONFLICT = 11, /* the stored file differs from the one opened, or two saves changed something in different ways */
    ED2K_REFUSED_STRANGERS = 12 /* the files are not of one model */
};

/* What a call's number means, in words. */
static inline const char *ed2k_meaning(uint8_t number)
{
    switch (number) {
    case ED2K_ACCEPTED:
        return "accepted";
    case ED2K_REFUSED_SHORT:
        return "the bytes end before the item being read ends";
    case ED2K_REFUSED_OPENING:
        return "the first byte is not one of this link's or file's";
    case ED2K_REFUSED_LENGTH:
        return "the header's length is 0 or is not the number of bytes after the header";
    case ED2K_REFUSED_KIND:
        return "the opcode is not listed for the link";
    case ED2K_REFUSED_CHOICE:
        return "a byte is outside its list, an unused status bit is set, or a tag name has length 0";
    case ED2K_REFUSED_LIMIT:
        return "a ceiling is exceeded";
    case ED2K_REFUSED_REST:
        return "bytes are left after the last item";
    case ED2K_REFUSED_RANGE:
        return "a start, end or gap breaks its rule";
    case ED2K_REFUSED_SIZE:
        return "a part.met has not exactly one size tag";
    case ED2K_REFUSED_ROOM:
        return "the lent output is too small";
    case ED2K_REFUSED_CONFLICT:
        return "the stored file differs from the one opened, or two saves changed something in different ways";
    case ED2K_REFUSED_STRANGERS:
        return "the files are not of one model";
    default:
        return "a number that this header does not have";
    }
}

/* The kinds of bytes. The first six have letters in the reading program: s c u k v p. */
enum {
    ED2K_SERVER_LINK = 0,
    ED2K_CLIENT_LINK = 1,
    ED2K_UDP_LINK = 2,
    ED2K_KNOWN_MET = 3,
    ED2K_SERVER_MET = 4,
    ED2K_PART_MET = 5,
    ED2K_LONE_QUERY = 6,
    ED2K_LONE_TAGS = 7
};

/* How many numbers the reading calls return; those that a message does not use are 0. A smaller array is refused (10). */
#define ED2K_FIELDS 16

/*
 * Reads a whole packet, file, query or tag list, and returns the numbers of its kind, in the slots of `fields` that are named below.
 * Where bytes are in `bytes` is given by their offset: that of a hash is the offset of its 16 bytes.
 */
uint8_t ed2k_read(uint8_t kind, const uint8_t *bytes, size_t length, uint64_t *fields, size_t field_count);

/* Some values have several numbers, from their slot on: fields[ED2K_FIELD_RECORDS + ED2K_LIST_COUNT] is how many records there are. */

/* A list: the offset of its first entry, the offset after its last one, and how many there are. */
#define ED2K_LIST_AT 0
#define ED2K_LIST_END 1
#define ED2K_LIST_COUNT 2

#define ED2K_QUERY_AT 0
#define ED2K_QUERY_END 1
#define ED2K_QUERY_DEPTH 2

/* A text, a name, data or a tail. */
#define ED2K_TEXT_AT 0
#define ED2K_TEXT_LENGTH 1

#define ED2K_ADDRESS_IP 0
#define ED2K_ADDRESS_PORT 1

/* The slots in `fields` of packets and files. */
enum {
    ED2K_FIELD_OPENING = 0, /* the opening byte of packets and files */

    ED2K_FIELD_OPCODE = 1,
    ED2K_FIELD_SHAPE = 2, /* of the body: ED2K_BODY_.. */
    ED2K_FIELD_BODY = 3,  /* the first of the body's values */

    ED2K_FIELD_KNOWN_ENTRIES = 1, /* list */

    ED2K_FIELD_SERVER_ENTRIES = 1, /* list */
    ED2K_FIELD_SERVER_TAIL = 4,    /* text */

    ED2K_FIELD_PART_SIZE = 1, /* part.met; it opens with E0 or E1 */
    ED2K_FIELD_PART_DATE = 2,
    ED2K_FIELD_PART_HASH = 3,
    ED2K_FIELD_PART_TAGS = 4,         /* list */
    ED2K_FIELD_PART_HASH_LISTS = 7,   /* which it has: ED2K_HASHES_.. */
    ED2K_FIELD_PART_HASHES = 8,       /* list */
    ED2K_FIELD_PART_BLOCK_HASHES = 11, /* list */

    ED2K_FIELD_LONE_QUERY = 0, /* query */
    ED2K_FIELD_LONE_TAGS = 0   /* list */
};

/* The shapes of bodies, and the slots of their values. */
enum {
    ED2K_BODY_NOTHING = 0,

    ED2K_BODY_QUERY = 1,
    ED2K_FIELD_QUERY = 3, /* query */

    ED2K_BODY_HASH = 2,
    ED2K_FIELD_HASH = 3, /* in every body that has a hash */

    ED2K_BODY_DWORD = 3,
    ED2K_FIELD_DWORD = 3,

    ED2K_BODY_TWO_DWORDS = 4,
    ED2K_FIELD_TWO_DWORDS = 3, /* two numbers */

    ED2K_BODY_TEXT = 5,
    ED2K_FIELD_TEXT = 3, /* text */

    ED2K_BODY_TWO_TEXTS = 6,
    ED2K_FIELD_FIRST_TEXT = 3,  /* text */
    ED2K_FIELD_SECOND_TEXT = 5, /* text */

    ED2K_BODY_ADDRESS = 7,
    ED2K_FIELD_ADDRESS = 3, /* address */

    ED2K_BODY_ADDRESSES = 8,
    ED2K_FIELD_ADDRESSES = 3, /* list */

    ED2K_BODY_HASH_ADDRESSES = 9,
    ED2K_FIELD_HASH_ADDRESSES = 4, /* list */

    ED2K_BODY_ADDRESS_DWORD = 10,
    ED2K_FIELD_ADDRESS_DWORD_ADDRESS = 3, /* address */
    ED2K_FIELD_ADDRESS_DWORD_DWORD = 5,

    ED2K_BODY_HASH_ADDRESS_TAGS = 11,
    ED2K_FIELD_HASH_ADDRESS_TAGS_ADDRESS = 4, /* address */
    ED2K_FIELD_HASH_ADDRESS_TAGS_TAGS = 6,    /* list */

    ED2K_BODY_RECORD = 12,
    ED2K_FIELD_RECORD_CLIENT = 4, /* these three also in RECORD_ADDRESS and HELLO */
    ED2K_FIELD_RECORD_PORT = 5,
    ED2K_FIELD_RECORD_TAGS = 6, /* list */

    ED2K_BODY_RECORDS = 13,
    ED2K_FIELD_RECORDS = 3, /* list, also in RECORDS_FLAG */

    ED2K_BODY_RECORDS_FLAG = 14,
    ED2K_FIELD_RECORDS_FLAG = 6, /* the byte 00 or 01 */

    ED2K_BODY_RECORD_ADDRESS = 15,
    ED2K_FIELD_RECORD_ADDRESS = 9, /* address, also in HELLO */

    ED2K_BODY_HELLO = 16,

    ED2K_BODY_HASH_TEXT = 17,
    ED2K_FIELD_HASH_TEXT = 4, /* text */

    ED2K_BODY_HASHSET = 18,
    ED2K_FIELD_HASHSET = 4, /* list */

    ED2K_BODY_SENDING_PART = 19,
    ED2K_FIELD_SENDING_PART_START = 4,
    ED2K_FIELD_SENDING_PART_END = 5,
    ED2K_FIELD_SENDING_PART_DATA = 6, /* text */

    ED2K_BODY_REQUEST_PARTS = 20,
    ED2K_FIELD_REQUEST_PARTS_STARTS = 4, /* three numbers */
    ED2K_FIELD_REQUEST_PARTS_ENDS = 7,   /* three numbers */

    ED2K_BODY_FILE_STATUS = 21,
    ED2K_FIELD_FILE_STATUS_PARTS = 4,
    ED2K_FIELD_FILE_STATUS_BITS = 5, /* the offset of the status bits: part p is bit p mod 8 of byte p / 8 */

    ED2K_BODY_STATUS_REQUEST = 22,
    ED2K_FIELD_STATUS_REQUEST_EXTENDED = 3, /* 0 plain or 1 extended */
    ED2K_FIELD_STATUS_REQUEST_DWORD = 4,

    ED2K_BODY_STATUS = 23,
    ED2K_FIELD_STATUS_DWORD = 3, /* that of the request */
    ED2K_FIELD_STATUS_USERS = 4,
    ED2K_FIELD_STATUS_FILES = 5,

    ED2K_BODY_EXTENDED_STATUS = 24,
    ED2K_FIELD_EXTENDED_STATUS_BYTES = 3, /* two bytes, those of the request */
    ED2K_FIELD_EXTENDED_STATUS_USERS = 5,
    ED2K_FIELD_EXTENDED_STATUS_FILES = 6,
    ED2K_FIELD_EXTENDED_STATUS_USERS_MAX = 7
};

/* Which hash lists a part.met has. One that opens with E0 has ED2K_HASHES_COUNTED, a counted list of part hashes. A lone list of one
 * that opens with E1 is read as part hashes, so that no call returns ED2K_HASHES_BLOCKS. */
enum {
    ED2K_HASHES_NONE = 0,
    ED2K_HASHES_PARTS = 1,
    ED2K_HASHES_BLOCKS = 2,
    ED2K_HASHES_BOTH = 3,
    ED2K_HASHES_COUNTED = 4
};

/* One item at an offset; `fields` takes the offset after it, then the item's values. */
uint8_t ed2k_read_tag(const uint8_t *bytes, size_t length, size_t at, uint64_t *fields, size_t field_count);
uint8_t ed2k_read_address(const uint8_t *bytes, size_t length, size_t at, uint64_t *fields, size_t field_count);
uint8_t ed2k_read_record(const uint8_t *bytes, size_t length, size_t at, uint64_t *fields, size_t field_count);
uint8_t ed2k_read_file_entry(const uint8_t *bytes, size_t length, size_t at, uint64_t *fields, size_t field_count);
uint8_t ed2k_read_server_entry(const uint8_t *bytes, size_t length, size_t at, uint64_t *fields, size_t field_count);
uint8_t ed2k_read_query_node(const uint8_t *bytes, size_t length, size_t at, uint64_t *fields, size_t field_count);

/* The slots in `fields` of items. */
enum {
    ED2K_ITEM_NEXT = 0, /* the offset after any item */

    ED2K_ITEM_TAG_TYPE = 1,  /* ED2K_TAG_.. */
    ED2K_ITEM_TAG_NAME = 2,  /* text */
    ED2K_ITEM_TAG_VALUE = 4, /* a HASH or String as a text; a DWORD or the bits of a FLOAT, then 0 */

    ED2K_ITEM_ADDRESS = 1, /* address */

    ED2K_ITEM_RECORD_HASH = 1,
    ED2K_ITEM_RECORD_CLIENT = 2,
    ED2K_ITEM_RECORD_PORT = 3,
    ED2K_ITEM_RECORD_TAGS = 4, /* list */

    ED2K_ITEM_FILE_DATE = 1,
    ED2K_ITEM_FILE_HASH = 2,
    ED2K_ITEM_FILE_PART_HASHES = 3, /* list */
    ED2K_ITEM_FILE_TAGS = 6,        /* list */

    ED2K_ITEM_SERVER_ADDRESS = 1, /* address */
    ED2K_ITEM_SERVER_TAGS = 3,    /* list */

    ED2K_ITEM_NODE_CASE = 1,     /* ED2K_NODE_..; what the case does not have is 0 */
    ED2K_ITEM_NODE_OPERATOR = 2, /* ED2K_OPERATOR_.. */
    ED2K_ITEM_NODE_TEXT = 3,     /* text */
    ED2K_ITEM_NODE_NUMBER = 5,
    ED2K_ITEM_NODE_BOUND = 6, /* ED2K_BOUND_.. */
    ED2K_ITEM_NODE_NAME = 7   /* text */
};

/* The types of tags. */
enum {
    ED2K_TAG_HASH = 1,
    ED2K_TAG_TEXT = 2,
    ED2K_TAG_DWORD = 3,
    ED2K_TAG_FLOAT = 4
};

/* The cases of query nodes. */
enum {
    ED2K_NODE_JOIN = 0,    /* an operator, whose two queries follow it */
    ED2K_NODE_KEYWORD = 1, /* a text in the file's name */
    ED2K_NODE_FIELD = 2,   /* a text that a tag equals */
    ED2K_NODE_LIMIT = 3    /* a number, as a bound of a tag's */
};

enum {
    ED2K_OPERATOR_AND = 0,
    ED2K_OPERATOR_OR = 1,
    ED2K_OPERATOR_AND_NOT = 2
};

enum {
    ED2K_BOUND_MIN = 1,
    ED2K_BOUND_MAX = 2
};

/* The rules that refused bytes break, each with the number that calls answer with; 5, 6 and 8 have several. */
enum {
    ED2K_RULE_SHORT = 1,      /* 1: the bytes end before the item ends */
    ED2K_RULE_OPENING = 2,    /* 2: the first byte is not the link's */
    ED2K_RULE_LENGTH = 3,     /* 3: the header's length is 0 or is not the number of bytes after the header */
    ED2K_RULE_KIND = 4,       /* 4: the opcode is not listed for the link */
    ED2K_RULE_CHOICE = 5,     /* 5: a byte is outside its list, or a name has length 0 */
    ED2K_RULE_STATUS_BIT = 6, /* 5: an unused status bit is set */
    ED2K_RULE_BYTES = 7,      /* 6: the packet has more than 65,536 bytes */
    ED2K_RULE_DEPTH = 8,      /* 6: the query is deeper than 24 */
    ED2K_RULE_NAME = 9,       /* 6: a name has more than 255 bytes */
    ED2K_RULE_GAPS = 10,      /* 6: a part.met has more than 64 gaps; no packet breaks it */
    ED2K_RULE_REST = 11,      /* 7: bytes are left after the last item */
    ED2K_RULE_ORDER = 12,     /* 8: a start is above its end */
    ED2K_RULE_DATA = 13,      /* 8: the data is not as long as its start and end say */
    ED2K_RULE_SIZE = 14       /* 9: a part.met has not exactly one size tag; no packet breaks it */
};

/* What breaking a rule means, in words. */
static inline const char *ed2k_rule_meaning(uint64_t rule)
{
    switch (rule) {
    case 0:
        return "accepted";
    case ED2K_RULE_SHORT:
        return "the bytes end before the item being read ends";
    case ED2K_RULE_OPENING:
        return "the first byte is not one of this link's or file's";
    case ED2K_RULE_LENGTH:
        return "the header's length is 0 or is not the number of bytes after the header";
    case ED2K_RULE_KIND:
        return "the opcode is not listed for the link";
    case ED2K_RULE_CHOICE:
        return "a byte is outside its list, or a name has length 0";
    case ED2K_RULE_STATUS_BIT:
        return "an unused status bit is set";
    case ED2K_RULE_BYTES:
        return "the packet has more than 65,536 bytes";
    case ED2K_RULE_DEPTH:
        return "the query is deeper than 24";
    case ED2K_RULE_NAME:
        return "a name has more than 255 bytes";
    case ED2K_RULE_GAPS:
        return "the file has more than 64 gaps";
    case ED2K_RULE_REST:
        return "bytes are left after the last item";
    case ED2K_RULE_ORDER:
        return "a start is above its end";
    case ED2K_RULE_DATA:
        return "the data is not as long as its start and end say";
    case ED2K_RULE_SIZE:
        return "a part.met has not exactly one size tag";
    default:
        return "a rule that this header does not have";
    }
}

/* How many numbers say why a packet is refused. */
#define ED2K_WHY_NUMBERS 4

/* The slots in `why`. */
enum {
    ED2K_WHY_ANSWER = 0, /* the number that ed2k_read has for the bytes, 0 to 9 */
    ED2K_WHY_RULE = 1,   /* ED2K_RULE_.. */
    ED2K_WHY_OFFSET = 2, /* where the faulty item begins */
    ED2K_WHY_SIZE = 3    /* how many bytes the item has; if the packet ends before it does, how many it needs */
};

/*
 * Why a packet is refused, in four numbers at the front of `why`; all four are 0 if it is accepted. What is after them stays as it was.
 * The call answers 0 either way. It refuses only these, in this order, and then leaves the whole array as it was:
 *   4   the kind is no link: for a file, a query or a tag list there is only the number of ed2k_read so far
 *   10  fewer than 4 numbers are lent
 * The faulty item, by its rule:
 *   SHORT                   the number, hash or run of bytes that does not end; a run begins after its count
 *   OPENING, LENGTH, KIND   the opening byte, the length, the opcode
 *   CHOICE                  the byte, or the WORD that is the length of an empty name
 *   NAME                    the WORD that is the length of the name
 *   STATUS_BIT              all status bytes
 *   BYTES                   the whole packet
 *   DEPTH                   no bytes, at the place where the query at depth 25 would begin, which may be the end of the packet
 *   ORDER, DATA             all starts and ends of the packet, which are judged together
 *   REST                    the first byte that is left
 * Any other packet of the same length that is equal up to the end of the item, or up to the end of the packet if that comes first, is
 * refused with the same four numbers. If the packet ends before the item does, not even the bytes of the item that are there count.
 */
uint8_t ed2k_why(uint8_t kind, const uint8_t *bytes, size_t length, uint64_t *why, size_t count);

/* How many parts of 9,728,000 bytes and blocks of 486,400 bytes a file of this size has begun. */
uint32_t ed2k_part_count(uint32_t size);
uint32_t ed2k_block_count(uint32_t size);

/* A gap record is 130 numbers: size, how many gaps, then 64 pairs of start and end. Unused pairs are returned as 0, and not checked
 * where a record is read. Fewer numbers are no lawful record (8); of a longer array only the first 130 are read or written. */
#define ED2K_GAP_NUMBERS 130

/* The slots in a gap record. */
enum {
    ED2K_GAPS_SIZE = 0,
    ED2K_GAPS_COUNT = 1,
    ED2K_GAPS_FIRST = 2 /* start and end of the first gap; those of the next are after them */
};

/* The gaps of a part.met: its own refusals, then 10 for an array of fewer numbers. */
uint8_t ed2k_read_gaps(const uint8_t *file, size_t length, uint64_t *gaps, size_t gap_numbers);

/* The record of a file of this size of which every byte is missing. 8 for a size above 4,294,967,295, then 10. */
uint8_t ed2k_all_missing(uint64_t size, uint64_t *gaps, size_t gap_numbers);

/* How many bytes a lawful record has missing, in `missing`; else 8, and 0 there. */
uint8_t ed2k_count_missing(const uint64_t *gaps, size_t gap_numbers, uint64_t *missing);

/* Marks the bytes from start up to end as arrived; `missing` takes how many are left. 8 for a range or record that breaks its
 * rules, 6 for more than 64 gaps afterwards: then the record stays as it was, and `missing` takes 0. Two ranges may be marked in
 * either order: if none of the calls is refused, all numbers of the record and `missing` are the same at the end. */
uint8_t ed2k_mark(uint64_t *gaps, size_t gap_numbers, uint64_t start, uint64_t end, uint64_t *missing);

/* The calls that write take the output, and `written` takes how many bytes were written at its front; what is after them stays. A
 * refused one leaves the output as it was, and 0 in `written`. Room is asked for last (10). */

/* The part.met `file` with the gaps of the record: the file's own number; 8; 6 above the byte ceiling; 10. */
uint8_t ed2k_put_gaps(const uint8_t *file, size_t length, const uint64_t *gaps, size_t gap_numbers, uint8_t *output,
                      size_t room, size_t *written);

/*
 * Saves a part.met: `saved`, if `stored` is still, byte for byte, the `opened` file; else the merge of both, as ed2k_merge makes it with
 * `stored` as the first save and `saved` as the second. In this order, all but the first and the last only where it merges:
 *   ..  the reader's number for `saved`
 *   ..  the own number of `opened`, that of `stored`
 *   12  the file hash or the size differs in any two
 *   11  the form with its hash lists, or the other tags, were changed in two different ways
 *   6   more than 64 gaps, or more than 1,048,576 bytes
 *   10
 * Two windows that opened one part.met, and of which each wants to save another one, may save in either order: the one that saves second
 * gets the same number, length and output.
 *
 * An outcome has at most stored_length + saved_length + 1,280 bytes. No file is touched: examples/saving.c does this with one on the disk,
 * from the lock to the renaming.
 *
 * This call refused every changed file (11) until it merged. Callers that relied on that, such as the archive job, call ed2k_save_strict
 * now.
 */
uint8_t ed2k_save(const uint8_t *stored, size_t stored_length, const uint8_t *opened, size_t opened_length, const uint8_t *saved,
                  size_t saved_length, uint8_t *output, size_t room, size_t *written);

/* Saves a part.met and never merges: the reader's number for `saved`; 11 if `stored` is not, byte for byte, the `opened` file; 10.
 * Two empty ones are equal: a model's first save, which asks for this call, as does the archive job, which must never store a file that
 * no window wrote. */
uint8_t ed2k_save_strict(const uint8_t *stored, size_t stored_length, const uint8_t *opened, size_t opened_length,
                         const uint8_t *saved, size_t saved_length, uint8_t *output, size_t room, size_t *written);

/*
 * Merges two saves of one part.met: `opened` is the file that both windows opened, `first` and `second` are what they want to save. A
 * byte that the opened file misses is missing in the outcome exactly when both saves miss it; a byte that it has, exactly when either
 * save misses it. The date is the later one of the two saves. The opening form with its hash lists, as one value, and the tags other
 * than gap tags, as one list, are those of the save that changed them; equal changes are one change. The gaps come after the other tags,
 * numbered from 0. In this order:
 *   ..  the own number of `opened`, that of `first`, that of `second`
 *   12  the file hash or the size differs in any two
 *   11  the form with its hash lists, or the other tags, were changed in two different ways
 *   6   more than 64 gaps, or more than 1,048,576 bytes
 *   10
 * If each of the three files is accepted by itself, `first` and `second` may change places: number, length and output are the same.
 * An outcome has at most first_length + second_length + 1,280 bytes.
 */
uint8_t ed2k_merge(const uint8_t *opened, size_t opened_length, const uint8_t *first, size_t first_length, const uint8_t *second,
                   size_t second_length, uint8_t *output, size_t room, size_t *written);

/* Whether a lone query holds on a lone tag list: `truth` takes 0 or 1, and 0 where the call refuses. The query's refusals come before
 * the list's. Each leaf that is asked scans the list once, in time linear in the bytes of the list, so the cost is at most the leaves
 * times the bytes of the list; a side of an operator that cannot change the truth is skipped. */
uint8_t ed2k_truth(const uint8_t *query, size_t query_length, const uint8_t *tags, size_t tags_length, uint8_t *truth);

/* A lone query from its pieces: 6 for a text above 65,535 bytes or too many bytes, 5 and 6 for a name of 0 or above 255 bytes. */
uint8_t ed2k_write_keyword(const uint8_t *text, size_t text_length, uint8_t *output, size_t room, size_t *written);
uint8_t ed2k_write_field(const uint8_t *text, size_t text_length, const uint8_t *name, size_t name_length, uint8_t *output,
                         size_t room, size_t *written);
/* bound: ED2K_BOUND_..; another is refused first (5). */
uint8_t ed2k_write_limit(uint32_t number, uint8_t bound, const uint8_t *name, size_t name_length, uint8_t *output, size_t room,
                         size_t *written);
/* operation: ED2K_OPERATOR_..; another is refused first (5); then the refusals of the left query, of the right one, and 6 above
 * depth 24. */
uint8_t ed2k_write_join(uint8_t operation, const uint8_t *left, size_t left_length, const uint8_t *right, size_t right_length,
                        uint8_t *output, size_t room, size_t *written);

/* Single tags, to compose a list: 6 for a name or text that its count cannot hold, 5 for an empty name, 6 above 255 bytes. */
uint8_t ed2k_write_text_tag(const uint8_t *name, size_t name_length, const uint8_t *text, size_t text_length, uint8_t *output,
                            size_t room, size_t *written);
uint8_t ed2k_write_dword_tag(const uint8_t *name, size_t name_length, uint32_t number, uint8_t *output, size_t room,
                             size_t *written);
uint8_t ed2k_write_float_tag(const uint8_t *name, size_t name_length, uint32_t bits, uint8_t *output, size_t room,
                             size_t *written);
/* The hash is the first 16 bytes of `hash`; fewer are refused (1). */
uint8_t ed2k_write_hash_tag(const uint8_t *name, size_t name_length, const uint8_t *hash, size_t hash_length, uint8_t *output,
                            size_t room, size_t *written);
/* A lone tag list of the `count` tags that are encoded at the offset `at` of `bytes`; if they are not, the refusal of their own
 * reading. */
uint8_t ed2k_write_tag_list(const uint8_t *bytes, size_t length, size_t at, uint32_t count, uint8_t *output, size_t room,
                            size_t *written);
/* The lone query that is encoded at the offset `at` of `bytes`. */
uint8_t ed2k_write_query(const uint8_t *bytes, size_t length, size_t at, uint8_t *output, size_t room, size_t *written);

/*
 * A whole packet, file, query or tag list from its numbers, which are those that ed2k_read returns for its kind; offsets are in `bytes`.
 * What is encoded at an offset is read again, and the ends of lists and queries and the depths of queries are not checked; nor is the
 * size of a part.met, which its tags give. In this order:
 *   4   the kind is none of those above
 *   5   the first 16 numbers, or fewer where so many are not lent, are those of no message of the kind: a number above what its field
 *       holds (32 bits for the count of a list; a length, and the number of parts of a status, may be any), one that the message does
 *       not use and that is not 0, an unlisted shape, form or hash lists, a part.met that opens with neither E0 nor E1, an E0 without
 *       ED2K_HASHES_COUNTED or an E1 with it
 *   4   the link lists the opcode with another shape
 *   ..  an item is not encoded at its offset: the number of its own reading, the first at fault in the order of the bytes written
 *   6   a text above 65,535 bytes, more than 255 addresses, more than 65,535 hashes after a count, more than 65,535 status bits
 *   5   the bytes would be another message: a status request of the other form, or hash lists of a part.met that is read otherwise
 *   ..  the number that ed2k_read has for the bytes
 *   10
 */
uint8_t ed2k_write(uint8_t kind, const uint8_t *bytes, size_t length, const uint64_t *fields, size_t field_count, uint8_t *output,
                   size_t room, size_t *written);

/* Single entries, to compose a list of them. Offsets are in `bytes`; an item that is not encoded at its offset has the number of its own
 * reading, the first in the order of the bytes written. An entry by itself has no byte ceiling; 10 comes last. */
uint8_t ed2k_write_address(uint32_t ip, uint16_t port, uint8_t *output, size_t room, size_t *written);
uint8_t ed2k_write_record(const uint8_t *bytes, size_t length, size_t hash, uint32_t client, uint16_t port, size_t tags_at,
                          uint32_t tag_count, uint8_t *output, size_t room, size_t *written);
/* 6 for more than 65,535 part hashes, after the numbers of its items. */
uint8_t ed2k_write_file_entry(const uint8_t *bytes, size_t length, uint32_t date, size_t hash, size_t hashes_at, uint32_t hash_count,
                              size_t tags_at, uint32_t tag_count, uint8_t *output, size_t room, size_t *written);
uint8_t ed2k_write_server_entry(const uint8_t *bytes, size_t length, uint32_t ip, uint16_t port, size_t tags_at, uint32_t tag_count,
                                uint8_t *output, size_t room, size_t *written);

#ifdef __cplusplus
}
#endif

#endif
