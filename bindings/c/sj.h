/* sj.h: JSON documents (RFC 8259, whole numbers only) for C, by a proved library.
 *
 * Link libsj_c.a, and heap.c beside it: docs/DOOR.md says how both are built.
 *
 * Handles. An sj_doc holds one document or none, an sj_text one print or none. A handle of zero
 * bytes holds none: `sj_doc doc = {0};`. Its fields are the library's own: neither read nor write
 * nor copy them. A call that puts a document into a handle lets go what that held before. Let each
 * handle go by sj_free or sj_text_free in the end: it holds none then, and may be used again. To
 * let go a handle that holds none does nothing. A handle that was let go is as one of zero bytes.
 *
 * A handle may be moved to another place, where the first is not used again. Whether one holds a
 * document says sj_find with a path of length 0: SJ_EMPTY where it holds none.
 *
 * Bytes. Texts are a pointer and a length in bytes, with no zero byte behind them; zero bytes may
 * stand within them. Where a length or a room is 0 its pointer may be NULL. No other pointer may:
 * no handle, also not that of sj_free, no old, no buffers, no out parameter. What a call takes as
 * `uint8_t *` it writes over; what it takes as `const uint8_t *` it leaves. Paths, keys and the
 * bytes of sj_of_text are UTF-8, or SJ_BAD_ARGUMENT is answered.
 *
 * Pointers that calls give out (sj_value's text, sj_member's key, sj_text_bytes) lead into what the
 * handle holds. They are good until that handle is next given to an edit, a patch, a merge or
 * sj_lines, also where that is refused, or is given away, filled or let go; calls that only read
 * leave them good. Read through them, and write not. sj_peek's lead into its bytes.
 *
 * Two handles given to one call are different ones. No buffer and no out parameter overlaps a
 * handle, what a handle of the call holds, or another of them; a path and a key may be the same
 * bytes. So copy a key that sj_members gave out before you give it to a call on that document.
 *
 * Statuses. Each call that can be refused answers one. Refused, the handles stand as the call says,
 * and out parameters (sj_value and the like, but for sj_patch's at) are not to be read. Nothing is
 * aborted or thrown.
 *
 * Memory is asked for by rattle_alloc and rattle_realloc, and given back by rattle_dealloc, which
 * heap.c takes to malloc, realloc and free. A refused request is answered SJ_OUT_OF_MEMORY.
 *
 * Threads. There is no state but that of handles and sj_buffers; each is used by one call at a
 * time, also by calls that only read. Calls on different ones may run at once, and each may go to
 * another thread between two calls. Make no call from a signal handler, or in the child of a
 * program with threads.
 *
 * Stack. Have 512 KB. A text is read to SJ_MAX_LEVELS arrays and objects inside one another; edits
 * may nest them deeper. SJ_TOO_DEEP is answered by sj_same and sj_diff where both documents have
 * more, by sj_patch where the patch has, and by sj_merge and sj_merge_diff past
 * SJ_MAX_MERGE_LEVELS. All other calls take a stack of one size at any depth.
 *
 * What each call answers and leaves is proved for callers that keep these rules. The rules
 * themselves are yours: nothing checks them.
 */
#ifndef SJ_H
#define SJ_H

#include <stdbool.h>
#include <stddef.h>
#include <stdint.h>

#ifdef __cplusplus
extern "C" {
#endif

typedef struct sj_doc {
    void *private_at;
    bool private_is_open;
} sj_doc;

typedef struct sj_text {
    void *private_at;
    bool private_is_open;
} sj_text;

/* What readings share, one after another: for how many nodes of a text the next one makes room at
 * once, which is as many as the largest text had so far. Zero bytes are for none: `sj_buffers
 * buffers = {0};`. They hold no memory, so there is nothing to let go. */
typedef struct sj_buffers {
    size_t private_nodes;
} sj_buffers;

enum { SJ_MAX_LEVELS = 1024, SJ_MAX_MERGE_LEVELS = 256 };

typedef uint32_t sj_status;
enum {
    SJ_OK = 0,
    SJ_OUT_OF_MEMORY = 1,
    SJ_TOO_LONG = 2, /* a print would pass 2^64-1 bytes */
    SJ_EMPTY = 3,    /* a handle holds none */
    SJ_MISSING = 4,  /* nothing stands at the pointer */
    SJ_NOT_AN_OBJECT = 5,
    SJ_NOT_AN_ARRAY = 6,
    SJ_BAD_POINTER = 7,     /* the path is no pointer of RFC 6901 */
    SJ_BAD_ARGUMENT = 8,    /* a path, a key or a text is not UTF-8 */
    SJ_USAGE = 9,           /* there is no such form */
    SJ_NO_MERGE_PATCH = 10, /* no merge patch leads from one document to the other */

    /* why a text was not read */
    SJ_INVALID_UTF8 = 16,
    SJ_SYNTAX = 17,
    SJ_LONE_SURROGATE = 18,   /* an escape is half of a pair */
    SJ_FLOAT = 19,            /* a number has a fraction or an exponent */
    SJ_NUMBER_TOO_LARGE = 20, /* a number is not from -2^127 to 2^128-1 */
    SJ_TOO_DEEP = 21,         /* more arrays and objects inside one another than the call takes */

    /* why a document is no patch; but for the first, sj_patch's at is the number of the item */
    SJ_PATCH_NOT_AN_ARRAY = 32,
    SJ_PATCH_NOT_AN_OBJECT = 33, /* the item is no object */
    SJ_PATCH_OP = 34,            /* it has no "op" that names an operation */
    SJ_PATCH_PATH = 35,          /* no "path" that is a pointer */
    SJ_PATCH_FROM = 36,          /* no "from" that is a pointer */
    SJ_PATCH_VALUE = 37,         /* no "value" */

    /* why an operation has no result; sj_patch's at is its number */
    SJ_PATCH_MISSING = 48,     /* nothing stands where something has to */
    SJ_PATCH_NO_PLACE = 49,    /* no item can go to that place of the array */
    SJ_PATCH_WHOLE = 50,       /* the whole document cannot be removed */
    SJ_PATCH_INTO_ITSELF = 51, /* a value cannot be moved into itself */
    SJ_PATCH_DIFFERS = 52      /* a test found another value */
};

/* What a value is; of a number, what carries it. */
enum {
    SJ_NULL = 0,
    SJ_BOOL = 1,
    SJ_I64 = 2,
    SJ_U64 = 3,
    SJ_I128 = 4,
    SJ_U128 = 5,
    SJ_STRING = 6,
    SJ_ARRAY = 7,
    SJ_OBJECT = 8
};

/* A value as a call found it. A number is asked by is_signed, is_unsigned, whatever carries it. */
typedef struct sj_value {
    uint32_t kind;
    bool is_true;     /* the truth value */
    bool is_signed;   /* a whole number that fits int64_t: it is number_signed */
    bool is_unsigned; /* a whole number that fits uint64_t: it is number_unsigned */
    int64_t number_signed;
    uint64_t number_unsigned;
    uint64_t low;        /* each number in two's complement of 128 bits, the low 64 */
    uint64_t high;       /* and the high 64; of SJ_U128, without a sign */
    size_t len;          /* the bytes of a text, the items of an array, the members of an object */
    const uint8_t *text; /* the bytes of a text */
} sj_value;

/* A member of an object. */
typedef struct sj_member {
    const uint8_t *key;
    size_t key_len;
    sj_value value;
} sj_member;

/* --- whole documents --- */

/* Reads one text into doc. Of several members with one key the first stays, or, where last is true,
 * the last, in the place of the first. Refused, doc holds what it held. */
sj_status sj_read(sj_doc *doc, uint8_t *bytes, size_t len, bool last);

/* The same, where the first stays, for one text after another. The buffers can be used again
 * whatever is answered. */
sj_status sj_read_with_buffers(sj_doc *doc, uint8_t *bytes, size_t len, sj_buffers *buffers);

/* Lets the document go. */
void sj_free(sj_doc *doc);

/* Copies doc into copy. Refused, copy holds what it held. */
sj_status sj_clone(sj_doc *doc, sj_doc *copy);

/* Whether two documents are the same: members in any order, numbers by their value. Refused as
 * SJ_TOO_DEEP only where both have more than SJ_MAX_LEVELS levels. */
sj_status sj_same(sj_doc *one, sj_doc *other, bool *same);

/* Documents of scalars, and empty ones. Refused, doc holds what it held. sj_of_wide takes a number
 * of 128 bits as two words, in two's complement where is_signed is true. */
sj_status sj_of_null(sj_doc *doc);
sj_status sj_of_bool(sj_doc *doc, bool truth);
sj_status sj_of_signed(sj_doc *doc, int64_t number);
sj_status sj_of_unsigned(sj_doc *doc, uint64_t number);
sj_status sj_of_wide(sj_doc *doc, uint64_t low, uint64_t high, bool is_signed);
sj_status sj_of_text(sj_doc *doc, const uint8_t *bytes, size_t len);
sj_status sj_of_array(sj_doc *doc);
sj_status sj_of_object(sj_doc *doc);

/* --- prints --- */

/* Prints doc into text: compact, or with two spaces a level. Refused, text holds what it held. */
sj_status sj_print(sj_doc *doc, sj_text *text, bool is_pretty);

/* Prints doc into text in the canonical form of RFC 8785, but that numbers past 2^53 have all their
 * digits: equal bytes for documents that are the same, and for those alone. Refused, text holds
 * what it held. */
sj_status sj_print_canonical(sj_doc *doc, sj_text *text);

/* Where the bytes of the print lie, and how many they are. */
sj_status sj_text_bytes(sj_text *text, const uint8_t **at, size_t *len);

/* Copies as many bytes of the print as there is room for, and answers how many; 0 where text holds
 * none. */
size_t sj_text_copy(sj_text *text, uint8_t *out, size_t room);

/* Lets the print go. */
void sj_text_free(sj_text *text);

/* --- reads at a pointer (RFC 6901): "" is the whole document, "/a/0" an item --- */

/* Says what stands there. Where nothing does: SJ_MISSING. */
sj_status sj_find(sj_doc *doc, const uint8_t *path, size_t path_len, sj_value *value);

/* Prints what stands there into text, or copies it to copy. Refused, those hold what they held. */
sj_status sj_print_at(sj_doc *doc, const uint8_t *path, size_t path_len, sj_text *text,
                      bool is_pretty);
sj_status sj_clone_at(sj_doc *doc, const uint8_t *path, size_t path_len, sj_doc *copy);

/* Says which items stand in the array there, from a position on, as many as out has places for,
 * which room is; count is how many that were, 0 past the end. SJ_NOT_AN_ARRAY where it is none. The
 * time is that of the items said. */
sj_status sj_items(sj_doc *doc, const uint8_t *path, size_t path_len, size_t from, sj_value *out,
                   size_t room, size_t *count);

/* Says which members stand in the object there, in order, in the same way. SJ_NOT_AN_OBJECT where
 * it is none. */
sj_status sj_members(sj_doc *doc, const uint8_t *path, size_t path_len, size_t from, sj_member *out,
                     size_t room, size_t *count);

/* Says what stands at a pointer in a text, of which no document is built. The bytes are written
 * over, and a text that is found lies in them. Of arrays and objects len is 0. last: as in sj_read.
 * Refused as sj_read is, and as SJ_MISSING. */
sj_status sj_peek(uint8_t *bytes, size_t len, bool last, const uint8_t *path, size_t path_len,
                  sj_value *value);

/* --- edits at a pointer --- */

/* Done, the value's handle holds none, and old holds what was there, or what it held where nothing
 * was. Refused, all hold what they held: the value stays with you. Where the pointer finds nothing,
 * sj_insert and sj_remove answer SJ_NOT_AN_OBJECT, sj_push and sj_pop SJ_NOT_AN_ARRAY, and sj_put
 * SJ_MISSING. SJ_EMPTY: doc or value holds none. */

/* Sets the value of the key of the object there. A key that is there keeps its place. */
sj_status sj_insert(sj_doc *doc, const uint8_t *path, size_t path_len, const uint8_t *key,
                    size_t key_len, sj_doc *value, sj_doc *old);

/* Puts the value behind the items of the array there. old stays. */
sj_status sj_push(sj_doc *doc, const uint8_t *path, size_t path_len, sj_doc *value, sj_doc *old);

/* Puts the value in the place of what stands there. */
sj_status sj_put(sj_doc *doc, const uint8_t *path, size_t path_len, sj_doc *value, sj_doc *old);

/* Sets what the pointer leads to, and makes the objects that are missing on the way. Where a token
 * finds nothing in an array, or meets a scalar, it is refused as SJ_NOT_AN_OBJECT. */
sj_status sj_set(sj_doc *doc, const uint8_t *path, size_t path_len, sj_doc *value, sj_doc *old);

/* Takes the member of the key out of the object there. Where it has none, it answers SJ_OK. */
sj_status sj_remove(sj_doc *doc, const uint8_t *path, size_t path_len, const uint8_t *key,
                    size_t key_len, sj_doc *old);

/* Takes the last item of the array there. Where it has none, it answers SJ_OK. */
sj_status sj_pop(sj_doc *doc, const uint8_t *path, size_t path_len, sj_doc *old);

/* --- patches: the patch, and what is compared, stay as they are --- */

/* Does the operations that a patch document lists (RFC 6902), all of them or none. Refused, doc
 * holds what it held, and at is the number of the operation, from 0 on, where the status is of one.
 * SJ_TOO_DEEP: the patch has more than SJ_MAX_LEVELS levels. */
sj_status sj_patch(sj_doc *doc, sj_doc *patch, size_t *at);

/* Puts into patch a document that lists operations by which from becomes the same as to, none where
 * they are the same. Refused, patch holds what it held. SJ_TOO_DEEP: both have more than
 * SJ_MAX_LEVELS levels. */
sj_status sj_diff(sj_doc *from, sj_doc *to, sj_doc *patch);

/* Merges the patch into doc (RFC 7396). Refused, doc holds what it held. SJ_TOO_DEEP: the patch has
 * more than SJ_MAX_MERGE_LEVELS levels. */
sj_status sj_merge(sj_doc *doc, sj_doc *patch);

/* Puts into patch the merge patch by which from becomes the same as to; SJ_NO_MERGE_PATCH where
 * none leads there. Refused, patch holds what it held. SJ_TOO_DEEP: to has more than
 * SJ_MAX_MERGE_LEVELS levels. */
sj_status sj_merge_diff(sj_doc *from, sj_doc *to, sj_doc *patch);

/* --- command lines (docs/SJVAL.md), as ["insert","/a","k",1] --- */

/* Answers the lines in turn on doc, and puts the replies into text, each with a line feed behind
 * it; that of encode_pp has several lines. A line that is no command has the reply `bad command`,
 * and empty lines are passed over. Refused, text holds what it held, and doc holds a document in
 * which some of the commands may be done. The lines are written over. */
sj_status sj_lines(sj_doc *doc, uint8_t *lines, size_t len, sj_text *text);

/* Reads the document of the input, answers the lines behind its first line --- on it, and puts the
 * replies into text. form is 0 owned, 1 borrowed, 2 lazy, and else SJ_USAGE is answered; last: as
 * in sj_read. A document that is not read is refused as sj_read refuses it. Refused, text holds
 * what it held. The input is written over. */
sj_status sj_session(uint8_t *input, size_t len, uint32_t form, bool last, sj_text *text);

#ifdef __cplusplus
}
#endif

#endif
