/* Refuses each request for memory of each call in turn: the Nth is refused, N counting up until a
 * run meets none. The call answers SJ_OUT_OF_MEMORY exactly then, and what it was given stands.
 * Link with -Wl,--wrap,malloc -Wl,--wrap,realloc. */
#include "sj.h"
#include <stdio.h>
#include <stdlib.h>
#include <string.h>

#define TEXT(s) (const uint8_t *)(s), strlen(s)

static long left = -1; /* how many requests are granted before the one that is refused; -1: all */
static long asked;

void *__real_malloc(size_t size);
void *__real_realloc(void *block, size_t size);

static bool is_refused(void) {
    asked++;
    return left >= 0 && left-- == 0;
}

void *__wrap_malloc(size_t size) {
    return is_refused() ? NULL : __real_malloc(size);
}

void *__wrap_realloc(void *block, size_t size) {
    return is_refused() ? NULL : __real_realloc(block, size);
}

static const char document[] = "{\"a\":[1,2],\"k\":\"v\"}";
static const char first_done[] = "{\"a\":[1,2],\"k\":\"v\",\"b\":[1]}";
static const char given[] = "[{\"x\":1}]";
static const char first_old[] = "0";
static const char first_text[] = "[0]";
static const char operations[] = "[{\"op\":\"copy\",\"from\":\"/a\",\"path\":\"/"
                                 "b\"},{\"op\":\"move\",\"from\":\"/k\",\"path\":\"/a/0\"}]";
static const char merged[] = "{\"a\":{\"n\":[3]},\"k\":\"w\"}";

struct world {
    sj_doc doc, value, old, patch, merge;
    sj_text text;
};

static void fill(sj_doc *doc, const char *text) {
    char bytes[256];
    strcpy(bytes, text);
    if (sj_read(doc, (uint8_t *)bytes, strlen(text), false) != SJ_OK)
        exit(2);
}

static void print_first(sj_text *text) {
    sj_doc doc = {0};
    fill(&doc, first_text);
    if (sj_print(&doc, text, false) != SJ_OK)
        exit(2);
    sj_free(&doc);
}

static bool holds(sj_doc *doc, const char *want) {
    sj_text text = {0};
    const uint8_t *at;
    size_t len;
    if (sj_print(doc, &text, false) != SJ_OK)
        return false;
    bool is = sj_text_bytes(&text, &at, &len) == SJ_OK && len == strlen(want) &&
              memcmp(at, want, len) == 0;
    sj_text_free(&text);
    return is;
}

enum call {
    READ,
    READ_WITH_BUFFERS,
    PRINT,
    CLONE,
    SAME,
    OF_NULL,
    OF_BOOL,
    OF_SIGNED,
    OF_UNSIGNED,
    OF_WIDE,
    OF_TEXT,
    OF_ARRAY,
    OF_OBJECT,
    FIND,
    PRINT_AT,
    CLONE_AT,
    ITEMS,
    MEMBERS,
    PEEK,
    INSERT,
    PUSH,
    PUT,
    SET,
    REMOVE,
    POP,
    CANONICAL,
    PATCH,
    DIFF,
    MERGE,
    MERGE_DIFF,
    LINES,
    SESSION,
    CALLS
};
static const char *const names[CALLS] = {"read",        "read_with_buffers",
                                         "print",       "clone",
                                         "same",        "of_null",
                                         "of_bool",     "of_signed",
                                         "of_unsigned", "of_wide",
                                         "of_text",     "of_array",
                                         "of_object",   "find",
                                         "print_at",    "clone_at",
                                         "items",       "members",
                                         "peek",        "insert",
                                         "push",        "put",
                                         "set",         "remove",
                                         "pop",         "print_canonical",
                                         "patch",       "diff",
                                         "merge",       "merge_diff",
                                         "lines",       "session"};

static sj_status make(enum call call, struct world *w) {
    char text[] = "{\"q\":[\"text\",{\"r\":1}]}",
         input[] = "{\"a\":1}\n---\n[\"insert\",[],\"b\",[1]]\n[\"encode\",[]]\n";
    char lines[] = "[\"insert\",[],\"b\",[1]]\n[\"encode\",[]]\n";
    sj_value found, items[2];
    sj_member members[2];
    size_t count;
    bool same;
    sj_buffers buffers = {0};
    switch (call) {
    case READ: return sj_read(&w->doc, (uint8_t *)text, strlen(text), false);
    case READ_WITH_BUFFERS:
        return sj_read_with_buffers(&w->doc, (uint8_t *)text, strlen(text), &buffers);
    case PRINT: return sj_print(&w->doc, &w->text, true);
    case CLONE: return sj_clone(&w->doc, &w->old);
    case SAME: return sj_same(&w->doc, &w->value, &same);
    case OF_NULL: return sj_of_null(&w->old);
    case OF_BOOL: return sj_of_bool(&w->old, true);
    case OF_SIGNED: return sj_of_signed(&w->old, -1);
    case OF_UNSIGNED: return sj_of_unsigned(&w->old, 1);
    case OF_WIDE: return sj_of_wide(&w->old, 1, 1, false);
    case OF_OBJECT: return sj_of_object(&w->old);
    case OF_TEXT: return sj_of_text(&w->old, TEXT("some text"));
    case OF_ARRAY: return sj_of_array(&w->old);
    case FIND: return sj_find(&w->doc, TEXT("/a/1"), &found);
    case PRINT_AT: return sj_print_at(&w->doc, TEXT("/a"), &w->text, true);
    case CLONE_AT: return sj_clone_at(&w->doc, TEXT("/a"), &w->old);
    case ITEMS: return sj_items(&w->doc, TEXT("/a"), 0, items, 2, &count);
    case MEMBERS: return sj_members(&w->value, TEXT("/0"), 0, members, 2, &count);
    case PEEK: return sj_peek((uint8_t *)text, strlen(text), false, TEXT("/q/0"), &found);
    case INSERT: return sj_insert(&w->doc, TEXT(""), TEXT("new"), &w->value, &w->old);
    case PUSH: return sj_push(&w->doc, TEXT("/a"), &w->value, &w->old);
    case PUT: return sj_put(&w->doc, TEXT("/a/0"), &w->value, &w->old);
    case SET: return sj_set(&w->doc, TEXT("/n/o"), &w->value, &w->old);
    case REMOVE: return sj_remove(&w->doc, TEXT(""), TEXT("k"), &w->old);
    case POP: return sj_pop(&w->doc, TEXT("/a"), &w->old);
    case CANONICAL: return sj_print_canonical(&w->doc, &w->text);
    case PATCH: return sj_patch(&w->doc, &w->patch, &count);
    case DIFF: return sj_diff(&w->doc, &w->value, &w->old);
    case MERGE: return sj_merge(&w->doc, &w->merge);
    case MERGE_DIFF: return sj_merge_diff(&w->doc, &w->merge, &w->old);
    case LINES: return sj_lines(&w->doc, (uint8_t *)lines, strlen(lines), &w->text);
    default: return sj_session((uint8_t *)input, strlen(input), 0, false, &w->text);
    }
}

/* Whether the print is still that one. */
static bool is_printed(sj_text *text, const char *want) {
    const uint8_t *at;
    size_t len;
    return sj_text_bytes(text, &at, &len) == SJ_OK && len == strlen(want) &&
           memcmp(at, want, len) == 0;
}

/* Of lines, the first may be done. */
static bool stands(enum call call, struct world *w) {
    bool is_kept = holds(&w->doc, document) || (call == LINES && holds(&w->doc, first_done));
    is_kept = is_kept && is_printed(&w->text, first_text);
    return is_kept && holds(&w->value, given) && holds(&w->old, first_old) &&
           holds(&w->patch, operations) && holds(&w->merge, merged);
}

int main(void) {
    long wrong = 0;
    for (enum call call = 0; call < CALLS; call++) {
        long most = 0;
        for (long n = 0;; n++) {
            struct world w = {0};
            fill(&w.doc, document);
            fill(&w.value, given);
            fill(&w.old, first_old);
            fill(&w.patch, operations);
            fill(&w.merge, merged);
            print_first(&w.text);
            asked = 0;
            left = n;
            sj_status status = make(call, &w);
            left = -1;
            bool met = asked > n;
            most = asked > most ? asked : most;
            if (status != (met ? SJ_OUT_OF_MEMORY : SJ_OK)) {
                printf("%s: request %ld refused: %u\n", names[call], n, status);
                wrong++;
            }
            if (met && !stands(call, &w)) {
                printf("%s: request %ld refused: something was lost\n", names[call], n);
                wrong++;
            }
            sj_free(&w.doc);
            sj_free(&w.value);
            sj_free(&w.old);
            sj_free(&w.patch);
            sj_free(&w.merge);
            sj_text_free(&w.text);
            if (!met)
                break;
        }
        printf("%s: %ld requests\n", names[call], most);
        if (most == 0) {
            printf("%s: no request was met\n", names[call]);
            wrong++;
        }
    }
    printf("%ld wrong\n", wrong);
    return wrong == 0 ? 0 : 1;
}
