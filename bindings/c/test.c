/* Each call once and more, by what RFC 8259 and 6901 say. Run it under valgrind: a
 * handle that is not let go is a leak. */
#include "sj.h"
#include <stdio.h>
#include <stdlib.h>
#include <string.h>

#define TEXT(s) (const uint8_t *)(s), strlen(s)
#define CHECK(fact)                                                                                \
    do {                                                                                           \
        if (!(fact)) {                                                                             \
            fprintf(stderr, "%s:%d: not so: %s\n", __FILE__, __LINE__, #fact);                     \
            exit(1);                                                                               \
        }                                                                                          \
    } while (0)

static sj_status read_text(sj_doc *doc, const char *text, bool last) {
    size_t len = strlen(text);
    uint8_t *bytes = malloc(len + 1);
    CHECK(bytes != NULL);
    memcpy(bytes, text, len);
    sj_status status = sj_read(doc, bytes, len, last);
    free(bytes);
    return status;
}

static bool has_bytes(sj_text *text, const char *want) {
    const uint8_t *at;
    size_t len;
    CHECK(sj_text_bytes(text, &at, &len) == SJ_OK);
    if (len == strlen(want) && memcmp(at, want, len) == 0)
        return true;
    fprintf(stderr, "printed: %.*s\n", (int)len, (const char *)at);
    return false;
}

static bool prints(sj_doc *doc, bool is_pretty, const char *want) {
    sj_text text = {0};
    CHECK(sj_print(doc, &text, is_pretty) == SJ_OK);
    bool is = has_bytes(&text, want);
    sj_text_free(&text);
    sj_text_free(&text);
    return is;
}

static void empty_handles(void) {
    sj_doc doc = {0}, other = {0}, old = {0};
    sj_text text = {0};
    sj_value found;
    const uint8_t *at;
    bool same;
    size_t len;
    CHECK(sj_print(&doc, &text, false) == SJ_EMPTY);
    CHECK(sj_text_bytes(&text, &at, &len) == SJ_EMPTY);
    CHECK(sj_text_copy(&text, NULL, 0) == 0);
    CHECK(sj_find(&doc, TEXT(""), &found) == SJ_EMPTY);
    CHECK(sj_clone(&doc, &other) == SJ_EMPTY);
    CHECK(sj_same(&doc, &other, &same) == SJ_EMPTY);
    CHECK(sj_of_null(&other) == SJ_OK);
    CHECK(sj_same(&other, &doc, &same) == SJ_EMPTY);
    CHECK(sj_put(&doc, TEXT(""), &other, &old) == SJ_EMPTY);
    CHECK(prints(&other, false, "null"));
    sj_free(&doc);
    sj_free(&other);
    sj_free(&other);
    sj_text_free(&text);
}

static void reads_and_prints(void) {
    sj_doc doc = {0};
    sj_text text = {0};
    uint8_t some[4] = "....";
    CHECK(read_text(&doc, " {\"a\":[1,2,{\"b\":\"x\\u0041\"}], \"a\": 5 } ", false) == SJ_OK);
    CHECK(prints(&doc, false, "{\"a\":[1,2,{\"b\":\"xA\"}]}"));
    CHECK(read_text(&doc, "{", false) == SJ_SYNTAX);
    CHECK(read_text(&doc, "1.5", false) == SJ_FLOAT);
    CHECK(read_text(&doc, "1e3", false) == SJ_FLOAT);
    CHECK(read_text(&doc, "\"\xff\"", false) == SJ_INVALID_UTF8);
    CHECK(read_text(&doc, "\"\\ud800\"", false) == SJ_LONE_SURROGATE);
    CHECK(read_text(&doc, "340282366920938463463374607431768211456", false) == SJ_NUMBER_TOO_LARGE);
    CHECK(prints(&doc, false, "{\"a\":[1,2,{\"b\":\"xA\"}]}"));
    CHECK(read_text(&doc, "{\"k\":1,\"j\":2,\"k\":3}", true) == SJ_OK);
    CHECK(prints(&doc, false, "{\"k\":3,\"j\":2}"));
    CHECK(prints(&doc, true, "{\n  \"k\": 3,\n  \"j\": 2\n}"));
    CHECK(sj_print(&doc, &text, false) == SJ_OK);
    CHECK(sj_text_copy(&text, some, 3) == 3 && memcmp(some, "{\"k.", 4) == 0);
    CHECK(sj_text_copy(&text, NULL, 0) == 0);
    CHECK(has_bytes(&text, "{\"k\":3,\"j\":2}"));
    sj_free(&doc);
    sj_text_free(&text);
}

/* Texts one after another, of which one is refused. */
static void reads_with_buffers(void) {
    sj_doc doc = {0};
    sj_buffers buffers = {0};
    char texts[3][32] = {"[1,[2,3],{\"k\":4,\"k\":5}]", "[1,", "{\"k\":1,\"k\":2}"};
    sj_status wanted[3] = {SJ_OK, SJ_SYNTAX, SJ_OK};
    const char *kept[3] = {"[1,[2,3],{\"k\":4}]", "[1,[2,3],{\"k\":4}]", "{\"k\":1}"};
    for (size_t i = 0; i < 3; i++) {
        uint8_t *text = (uint8_t *)texts[i];
        CHECK(sj_read_with_buffers(&doc, text, strlen(texts[i]), &buffers) == wanted[i]);
        CHECK(prints(&doc, false, kept[i]));
    }
    sj_free(&doc);
}

/* A text of so many levels: arrays, or objects of one member. */
static void nest(char *text, size_t levels, bool is_object) {
    const char *opened = is_object ? "{\"a\":" : "[";
    *text = 0;
    for (size_t level = 0; level < levels; level++)
        text = strcpy(text, opened) + strlen(opened);
    if (is_object)
        *text++ = '1';
    memset(text, is_object ? '}' : ']', levels);
    text[levels] = 0;
}

/* What the calls that recurse take on the stack that this runs on, and refuse. */
static void levels(void) {
    static char nested[8 * (SJ_MAX_LEVELS + 2)];
    sj_doc doc = {0}, copy = {0}, patch = {0};
    sj_text text = {0};
    const uint8_t *bytes;
    bool same;
    size_t at;
    nest(nested, SJ_MAX_LEVELS + 1, false);
    CHECK(read_text(&doc, nested, false) == SJ_TOO_DEEP);
    for (int is_object = 0; is_object < 2; is_object++) {
        nest(nested, SJ_MAX_LEVELS, is_object);
        CHECK(read_text(&doc, nested, false) == SJ_OK && prints(&doc, false, nested));
        CHECK(sj_clone(&doc, &copy) == SJ_OK);
        CHECK(sj_same(&doc, &copy, &same) == SJ_OK && same);
        CHECK(sj_diff(&doc, &copy, &patch) == SJ_OK && prints(&patch, false, "[]"));
    }
    CHECK(sj_merge(&doc, &copy) == SJ_TOO_DEEP &&
          sj_merge_diff(&doc, &copy, &patch) == SJ_TOO_DEEP);
    nest(nested, SJ_MAX_MERGE_LEVELS, true);
    CHECK(read_text(&patch, nested, false) == SJ_OK);
    CHECK(sj_merge(&doc, &patch) == SJ_OK && sj_merge_diff(&copy, &patch, &doc) == SJ_OK);
    nest(nested, SJ_MAX_MERGE_LEVELS + 1, true);
    CHECK(read_text(&patch, nested, false) == SJ_OK);
    CHECK(sj_merge(&doc, &patch) == SJ_TOO_DEEP &&
          sj_merge_diff(&doc, &patch, &copy) == SJ_TOO_DEEP);
    CHECK(prints(&patch, false, nested));

    /* edits make documents of more levels than can be read; they are printed, copied and let go */
    nest(nested, SJ_MAX_LEVELS, false);
    CHECK(read_text(&doc, nested, false) == SJ_OK);
    for (int times = 0; times < 25000; times++) {
        CHECK(sj_of_array(&copy) == SJ_OK && sj_push(&copy, TEXT(""), &doc, &patch) == SJ_OK);
        CHECK(sj_of_array(&doc) == SJ_OK && sj_push(&doc, TEXT(""), &copy, &patch) == SJ_OK);
    }
    CHECK(sj_clone(&doc, &copy) == SJ_OK);
    CHECK(sj_same(&doc, &copy, &same) == SJ_TOO_DEEP &&
          sj_diff(&doc, &copy, &patch) == SJ_TOO_DEEP);
    CHECK(sj_print(&doc, &text, false) == SJ_OK && sj_print_canonical(&copy, &text) == SJ_OK);
    CHECK(sj_text_bytes(&text, &bytes, &at) == SJ_OK && at == 2 * (SJ_MAX_LEVELS + 50000));
    CHECK(sj_patch(&doc, &copy, &at) == SJ_TOO_DEEP);
    CHECK(sj_of_null(&copy) == SJ_OK && sj_same(&doc, &copy, &same) == SJ_OK && !same);
    sj_free(&doc);
    sj_free(&copy);
    sj_free(&patch);
    sj_text_free(&text);
}

static void finds(void) {
    sj_doc doc = {0};
    sj_value found;
    CHECK(read_text(&doc,
                    "{\"a\":[1,-2,18446744073709551615,true,null],\"m~n/\":\"xA\",\"\":{\"o\":{}}}",
                    false) == SJ_OK);
    CHECK(sj_find(&doc, NULL, 0, &found) == SJ_OK && found.kind == SJ_OBJECT && found.len == 3);
    CHECK(sj_find(&doc, TEXT("/a"), &found) == SJ_OK && found.kind == SJ_ARRAY && found.len == 5);
    CHECK(sj_find(&doc, TEXT("/a/0"), &found) == SJ_OK && found.is_signed &&
          found.number_signed == 1 && found.is_unsigned && found.number_unsigned == 1);
    CHECK(sj_find(&doc, TEXT("/a/1"), &found) == SJ_OK && found.is_signed &&
          found.number_signed == -2 && !found.is_unsigned);
    CHECK(found.low == UINT64_MAX - 1 && found.high == UINT64_MAX);
    CHECK(sj_find(&doc, TEXT("/a/2"), &found) == SJ_OK && !found.is_signed &&
          found.number_unsigned == UINT64_MAX);
    CHECK(sj_find(&doc, TEXT("/a/3"), &found) == SJ_OK && found.kind == SJ_BOOL && found.is_true);
    CHECK(sj_find(&doc, TEXT("/a/4"), &found) == SJ_OK && found.kind == SJ_NULL);
    CHECK(sj_find(&doc, TEXT("/m~0n~1"), &found) == SJ_OK && found.kind == SJ_STRING &&
          found.len == 2 && memcmp(found.text, "xA", 2) == 0);
    CHECK(sj_find(&doc, TEXT("//o"), &found) == SJ_OK && found.kind == SJ_OBJECT && found.len == 0);
    CHECK(sj_find(&doc, TEXT("/a/5"), &found) == SJ_MISSING);
    CHECK(sj_find(&doc, TEXT("/a/00"), &found) == SJ_MISSING);
    CHECK(sj_find(&doc, TEXT("a"), &found) == SJ_BAD_POINTER);
    CHECK(sj_find(&doc, TEXT("/~2"), &found) == SJ_BAD_POINTER);
    CHECK(sj_find(&doc, TEXT("/\xff"), &found) == SJ_BAD_ARGUMENT);
    sj_free(&doc);
}

static void parts(void) {
    sj_doc doc = {0}, copy = {0};
    sj_text text = {0};
    CHECK(read_text(&doc, "{\"a\":[{\"b\":1}]}", false) == SJ_OK);
    CHECK(sj_print_at(&doc, TEXT("/a/0"), &text, false) == SJ_OK && has_bytes(&text, "{\"b\":1}"));
    CHECK(sj_print_at(&doc, TEXT("/a"), &text, true) == SJ_OK &&
          has_bytes(&text, "[\n  {\n    \"b\": 1\n  }\n]"));
    CHECK(sj_print_at(&doc, TEXT("/b"), &text, false) == SJ_MISSING &&
          has_bytes(&text, "[\n  {\n    \"b\": 1\n  }\n]"));
    CHECK(sj_clone_at(&doc, TEXT("/a/0/b"), &copy) == SJ_OK && prints(&copy, false, "1"));
    CHECK(sj_clone_at(&doc, TEXT("/b"), &copy) == SJ_MISSING && prints(&copy, false, "1"));
    CHECK(prints(&doc, false, "{\"a\":[{\"b\":1}]}"));
    sj_free(&doc);
    sj_free(&copy);
    sj_text_free(&text);
}

static void items_and_members(void) {
    sj_doc doc = {0};
    sj_value items[2];
    sj_member members[4];
    size_t count;
    CHECK(read_text(&doc, "{\"l\":[7,8,9],\"k\":\"v\",\"n\":null}", false) == SJ_OK);
    CHECK(sj_items(&doc, TEXT("/l"), 1, items, 2, &count) == SJ_OK && count == 2);
    CHECK(items[0].number_signed == 8 && items[1].number_signed == 9);
    CHECK(sj_items(&doc, TEXT("/l"), 2, items, 2, &count) == SJ_OK && count == 1 &&
          items[0].number_signed == 9);
    CHECK(sj_items(&doc, TEXT("/l"), 4, items, 2, &count) == SJ_OK && count == 0);
    CHECK(sj_items(&doc, TEXT("/k"), 0, items, 2, &count) == SJ_NOT_AN_ARRAY);
    CHECK(sj_items(&doc, TEXT("/x"), 0, items, 2, &count) == SJ_MISSING);
    CHECK(sj_members(&doc, TEXT(""), 0, members, 4, &count) == SJ_OK && count == 3);
    CHECK(members[0].key_len == 1 && *members[0].key == 'l' && members[0].value.len == 3);
    CHECK(*members[1].key == 'k' && *members[1].value.text == 'v');
    CHECK(*members[2].key == 'n' && members[2].value.kind == SJ_NULL);
    CHECK(sj_members(&doc, TEXT(""), 2, members, 4, &count) == SJ_OK && count == 1 &&
          *members[0].key == 'n');
    CHECK(sj_members(&doc, TEXT(""), 0, NULL, 0, &count) == SJ_OK && count == 0);
    CHECK(sj_members(&doc, TEXT("/l"), 0, members, 4, &count) == SJ_NOT_AN_OBJECT);
    sj_free(&doc);
}

static void makes(void) {
    sj_doc doc = {0};
    sj_value found;
    CHECK(sj_of_null(&doc) == SJ_OK && prints(&doc, false, "null"));
    CHECK(sj_of_bool(&doc, false) == SJ_OK && prints(&doc, false, "false"));
    CHECK(sj_of_signed(&doc, INT64_MIN) == SJ_OK && prints(&doc, false, "-9223372036854775808"));
    CHECK(sj_of_unsigned(&doc, UINT64_MAX) == SJ_OK && prints(&doc, false, "18446744073709551615"));
    CHECK(sj_of_text(&doc, TEXT("t\"")) == SJ_OK && prints(&doc, false, "\"t\\\"\""));
    CHECK(sj_of_text(&doc, TEXT("\xff")) == SJ_BAD_ARGUMENT && prints(&doc, false, "\"t\\\"\""));
    CHECK(sj_of_array(&doc) == SJ_OK && prints(&doc, false, "[]"));
    CHECK(sj_of_object(&doc) == SJ_OK && prints(&doc, false, "{}"));
    CHECK(sj_of_wide(&doc, UINT64_MAX, UINT64_MAX, false) == SJ_OK);
    CHECK(prints(&doc, false, "340282366920938463463374607431768211455"));
    CHECK(sj_find(&doc, NULL, 0, &found) == SJ_OK && found.kind == SJ_U128 && !found.is_unsigned &&
          found.low == UINT64_MAX && found.high == UINT64_MAX);
    CHECK(sj_of_wide(&doc, UINT64_MAX, UINT64_MAX, true) == SJ_OK && prints(&doc, false, "-1"));
    CHECK(sj_of_wide(&doc, 0, (uint64_t)1 << 63, true) == SJ_OK);
    CHECK(prints(&doc, false, "-170141183460469231731687303715884105728"));
    CHECK(sj_find(&doc, NULL, 0, &found) == SJ_OK && found.kind == SJ_I128 && !found.is_signed &&
          found.low == 0 && found.high == (uint64_t)1 << 63);
    CHECK(sj_of_wide(&doc, 5, 1, true) == SJ_OK && prints(&doc, false, "18446744073709551621"));
    sj_free(&doc);
}

static void copies_and_compares(void) {
    sj_doc one = {0}, other = {0};
    bool same;
    CHECK(read_text(&one, "{\"a\":1,\"b\":[2]}", false) == SJ_OK);
    CHECK(read_text(&other, "{\"b\":[2],\"a\":1}", false) == SJ_OK);
    CHECK(sj_same(&one, &other, &same) == SJ_OK && same);
    CHECK(sj_clone(&one, &other) == SJ_OK && prints(&other, false, "{\"a\":1,\"b\":[2]}"));
    CHECK(sj_of_null(&one) == SJ_OK);
    CHECK(sj_same(&one, &other, &same) == SJ_OK && !same);
    CHECK(prints(&other, false, "{\"a\":1,\"b\":[2]}"));
    sj_free(&one);
    sj_free(&other);
}

static void edits(void) {
    sj_doc doc = {0}, value = {0}, old = {0};
    CHECK(read_text(&doc, "{\"a\":[1,{\"b\":\"x\"}]}", false) == SJ_OK);
    CHECK(sj_of_signed(&value, -7) == SJ_OK);
    CHECK(sj_push(&doc, TEXT("/a"), &value, &old) == SJ_OK);
    CHECK(sj_push(&doc, TEXT("/a"), &value, &old) == SJ_EMPTY);
    CHECK(sj_of_bool(&value, true) == SJ_OK);
    CHECK(sj_push(&doc, TEXT(""), &value, &old) == SJ_NOT_AN_ARRAY &&
          prints(&value, false, "true"));
    CHECK(sj_insert(&doc, TEXT("/a"), TEXT("k"), &value, &old) == SJ_NOT_AN_OBJECT &&
          prints(&value, false, "true"));
    CHECK(sj_insert(&doc, TEXT("/q"), TEXT("k"), &value, &old) == SJ_NOT_AN_OBJECT &&
          prints(&value, false, "true"));
    CHECK(sj_put(&doc, TEXT("/q"), &value, &old) == SJ_MISSING && prints(&value, false, "true"));
    CHECK(sj_set(&doc, TEXT("/a/5/k"), &value, &old) == SJ_NOT_AN_OBJECT &&
          prints(&value, false, "true"));
    CHECK(sj_insert(&doc, TEXT("q"), TEXT("k"), &value, &old) == SJ_BAD_POINTER &&
          prints(&value, false, "true"));
    CHECK(sj_insert(&doc, TEXT(""), TEXT("\xff"), &value, &old) == SJ_BAD_ARGUMENT &&
          prints(&value, false, "true"));
    CHECK(sj_insert(&doc, TEXT("/a/1"), TEXT("b"), &value, &old) == SJ_OK &&
          prints(&old, false, "\"x\""));
    CHECK(sj_of_null(&value) == SJ_OK);
    CHECK(sj_insert(&doc, TEXT("/a/1"), TEXT("c"), &value, &old) == SJ_OK &&
          prints(&old, false, "\"x\""));
    CHECK(prints(&doc, false, "{\"a\":[1,{\"b\":true,\"c\":null},-7]}"));
    CHECK(sj_remove(&doc, TEXT("/a/1"), TEXT("b"), &old) == SJ_OK && prints(&old, false, "true"));
    CHECK(sj_remove(&doc, TEXT("/a/1"), TEXT("b"), &old) == SJ_OK && prints(&old, false, "true"));
    CHECK(sj_remove(&doc, TEXT("/a"), TEXT("b"), &old) == SJ_NOT_AN_OBJECT);
    CHECK(sj_pop(&doc, TEXT("/a"), &old) == SJ_OK && prints(&old, false, "-7"));
    CHECK(sj_pop(&doc, TEXT(""), &old) == SJ_NOT_AN_ARRAY &&
          sj_pop(&doc, TEXT("/z"), &old) == SJ_NOT_AN_ARRAY);
    CHECK(sj_of_array(&value) == SJ_OK);
    CHECK(sj_put(&doc, TEXT("/a/0"), &value, &old) == SJ_OK && prints(&old, false, "1"));
    CHECK(sj_pop(&doc, TEXT("/a/0"), &old) == SJ_OK && prints(&old, false, "1"));
    CHECK(prints(&doc, false, "{\"a\":[[],{\"c\":null}]}"));
    CHECK(sj_of_signed(&value, 5) == SJ_OK);
    CHECK(sj_set(&doc, TEXT("/a/1/d/e"), &value, &old) == SJ_OK && prints(&old, false, "1"));
    CHECK(sj_of_signed(&value, 6) == SJ_OK);
    CHECK(sj_set(&doc, TEXT("/a/1/d/e"), &value, &old) == SJ_OK && prints(&old, false, "5"));
    CHECK(sj_remove(&doc, TEXT("/a/1"), TEXT("d"), &old) == SJ_OK &&
          prints(&old, false, "{\"e\":6}"));
    CHECK(sj_of_null(&value) == SJ_OK);
    CHECK(sj_put(&doc, TEXT(""), &value, &old) == SJ_OK &&
          prints(&old, false, "{\"a\":[[],{\"c\":null}]}"));
    CHECK(prints(&doc, false, "null"));
    sj_free(&doc);
    sj_free(&value);
    sj_free(&old);
}

/* What sj_patch's at was before, and stays where the status is of no operation. */
#define UNTOLD 99

/* The patch (RFC 6902) does so to the document, or is refused so at that operation. */
static bool patches(const char *document, const char *operations, const char *want,
                    sj_status status, size_t at) {
    sj_doc doc = {0}, patch = {0};
    size_t failed = UNTOLD;
    CHECK(read_text(&doc, document, false) == SJ_OK &&
          read_text(&patch, operations, false) == SJ_OK);
    bool is = sj_patch(&doc, &patch, &failed) == status && failed == at;
    is = prints(&doc, false, want) && prints(&patch, false, operations) && is;
    sj_free(&doc);
    sj_free(&patch);
    return is;
}

static void patches_and_merges(void) {
    sj_doc doc = {0}, target = {0}, patch = {0};
    bool same;
    size_t at;
    CHECK(sj_patch(&doc, &patch, &at) == SJ_EMPTY && sj_merge(&doc, &patch) == SJ_EMPTY);
    CHECK(patches("{\"foo\":\"bar\"}", "[{\"op\":\"add\",\"path\":\"/baz\",\"value\":\"qux\"}]",
                  "{\"foo\":\"bar\",\"baz\":\"qux\"}", SJ_OK, UNTOLD));
    CHECK(patches(
        "{\"a\":1}",
        "[{\"op\":\"test\",\"path\":\"/a\",\"value\":1},{\"op\":\"remove\",\"path\":\"/b\"}]",
        "{\"a\":1}", SJ_PATCH_MISSING, 1));
    CHECK(patches("[]",
                  "[{\"op\":\"add\",\"path\":\"/0\",\"value\":1},{\"op\":\"test\",\"path\":\"/"
                  "0\",\"value\":2}]",
                  "[]", SJ_PATCH_DIFFERS, 1));
    CHECK(patches("[]", "[{\"op\":\"add\",\"path\":\"/1\",\"value\":1}]", "[]", SJ_PATCH_NO_PLACE,
                  0));
    CHECK(patches("[1]", "[{\"op\":\"remove\",\"path\":\"\"}]", "[1]", SJ_PATCH_WHOLE, 0));
    CHECK(patches("{\"a\":{}}", "[{\"op\":\"move\",\"from\":\"/a\",\"path\":\"/a/b\"}]",
                  "{\"a\":{}}", SJ_PATCH_INTO_ITSELF, 0));
    CHECK(patches("1", "{}", "1", SJ_PATCH_NOT_AN_ARRAY, UNTOLD));
    CHECK(patches("1", "[{\"op\":\"test\",\"path\":\"\",\"value\":1},[]]", "1",
                  SJ_PATCH_NOT_AN_OBJECT, 1));
    CHECK(patches("1", "[{\"op\":\"put\"}]", "1", SJ_PATCH_OP, 0));
    CHECK(patches("1", "[{\"op\":\"remove\",\"path\":\"a\"}]", "1", SJ_PATCH_PATH, 0));
    CHECK(patches("1", "[{\"op\":\"copy\",\"path\":\"\"}]", "1", SJ_PATCH_FROM, 0));
    CHECK(patches("1", "[{\"op\":\"add\",\"path\":\"\"}]", "1", SJ_PATCH_VALUE, 0));

    CHECK(read_text(&doc, "{\"a\":[1,2],\"b\":{\"c\":1}}", false) == SJ_OK);
    CHECK(read_text(&target, "{\"b\":{\"c\":2},\"a\":[1,3,2]}", false) == SJ_OK);
    CHECK(sj_diff(&doc, &target, &patch) == SJ_OK && sj_patch(&doc, &patch, &at) == SJ_OK);
    CHECK(sj_same(&doc, &target, &same) == SJ_OK && same);
    CHECK(sj_diff(&doc, &target, &patch) == SJ_OK && prints(&patch, false, "[]"));

    /* the example of RFC 7396, section 3 */
    CHECK(read_text(&doc, "{\"a\":\"b\",\"c\":{\"d\":\"e\",\"f\":\"g\"}}", false) == SJ_OK);
    CHECK(read_text(&patch, "{\"a\":\"z\",\"c\":{\"f\":null}}", false) == SJ_OK);
    CHECK(sj_merge(&doc, &patch) == SJ_OK &&
          prints(&doc, false, "{\"a\":\"z\",\"c\":{\"d\":\"e\"}}"));
    CHECK(prints(&patch, false, "{\"a\":\"z\",\"c\":{\"f\":null}}"));
    CHECK(read_text(&target, "{\"a\":\"z\"}", false) == SJ_OK);
    CHECK(sj_merge_diff(&doc, &target, &patch) == SJ_OK && prints(&patch, false, "{\"c\":null}"));
    CHECK(read_text(&target, "{\"a\":null}", false) == SJ_OK);
    CHECK(sj_merge_diff(&doc, &target, &patch) == SJ_NO_MERGE_PATCH &&
          prints(&patch, false, "{\"c\":null}"));
    sj_free(&doc);
    sj_free(&target);
    sj_free(&patch);
}

static void canonical(void) {
    sj_doc doc = {0};
    sj_text text = {0};
    CHECK(sj_print_canonical(&doc, &text) == SJ_EMPTY);
    CHECK(read_text(&doc, "{\"b\":-0,\"a\":{\"d\":\"\\u00e9\",\"c\":[]}}", false) == SJ_OK);
    CHECK(sj_print_canonical(&doc, &text) == SJ_OK &&
          has_bytes(&text, "{\"a\":{\"c\":[],\"d\":\"\xc3\xa9\"},\"b\":0}"));
    sj_free(&doc);
    sj_text_free(&text);
}

static void texts_and_lines(void) {
    const char *text = "{\"k\":[{\"t\":\"\\u0041b\"}],\"k\":-3}";
    char bytes[64], lines[] = "[\"insert\",[],\"z\",[true]]\n[\"len\",\"/z\"]\n\n[\"no\"]\n";
    char input[] = "{\"a\":1}\n---\n[\"encode\",[]]\n[\"len\",\"\"]\n";
    sj_value found;
    sj_doc doc = {0};
    sj_text replies = {0};
    strcpy(bytes, text);
    CHECK(sj_peek((uint8_t *)bytes, strlen(text), false, TEXT("/k/0/t"), &found) == SJ_OK &&
          found.len == 2 && memcmp(found.text, "Ab", 2) == 0);
    CHECK((const char *)found.text >= bytes && (const char *)found.text < bytes + sizeof bytes);
    strcpy(bytes, text);
    CHECK(sj_peek((uint8_t *)bytes, strlen(text), true, TEXT("/k"), &found) == SJ_OK &&
          found.number_signed == -3);
    strcpy(bytes, text);
    CHECK(sj_peek((uint8_t *)bytes, strlen(text), true, TEXT("/k/0"), &found) == SJ_MISSING);
    strcpy(bytes, "[");
    CHECK(sj_peek((uint8_t *)bytes, 1, false, TEXT(""), &found) == SJ_SYNTAX);
    CHECK(sj_lines(&doc, (uint8_t *)lines, strlen(lines), &replies) == SJ_EMPTY);
    CHECK(sj_of_object(&doc) == SJ_OK);
    CHECK(sj_lines(&doc, (uint8_t *)lines, strlen(lines), &replies) == SJ_OK &&
          has_bytes(&replies, "none\n1\nbad command\n"));
    CHECK(prints(&doc, false, "{\"z\":[true]}"));
    CHECK(sj_session((uint8_t *)input, strlen(input), 3, false, &replies) == SJ_USAGE &&
          has_bytes(&replies, "none\n1\nbad command\n"));
    CHECK(sj_session((uint8_t *)input, strlen(input), 2, false, &replies) == SJ_OK &&
          has_bytes(&replies, "{\"a\":1}\n1\n"));
    sj_free(&doc);
    sj_text_free(&replies);
}

int main(void) {
    empty_handles();
    reads_and_prints();
    reads_with_buffers();
    levels();
    finds();
    parts();
    items_and_members();
    makes();
    copies_and_compares();
    edits();
    patches_and_merges();
    canonical();
    texts_and_lines();
    puts("13 parts, all as said");
    return 0;
}
