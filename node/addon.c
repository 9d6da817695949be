/* ecma for Node: `call(function, text, options)` calls one of the functions of include/ecma.h, and answers what came of
 * it. index.js makes of this what users see. */
#define NAPI_VERSION 8
#include <node_api.h>
#include <stdbool.h>
#include <stdlib.h>
#include <string.h>

#include "ecma.h"

typedef void (*ecma_function)(const uint8_t *, size_t, const ecma_options *, uint8_t *, size_t, ecma_outcome *);

/* The functions, by the numbers that index.js has for them. */
static const ecma_function FUNCTIONS[] = {ecma_check, ecma_estree, ecma_format, ecma_names, ecma_tokens};

/* So many bytes of an answer are there for each byte of a text, at first. Bytes that aren't written take no memory. */
static const size_t ROOM[] = {1, 64, 4, 64, 32};

enum { OPTIONS = sizeof(ecma_options) / sizeof(uint32_t), LEAST = 1 << 16 };

static napi_value fail(napi_env env, const char *why) {
    napi_throw_error(env, NULL, why);
    return NULL;
}

/* The bytes of a string. Halves of surrogate pairs by themselves become U+FFFD. */
static uint8_t *bytes_of(napi_env env, napi_value text, size_t *len) {
    if (napi_get_value_string_utf8(env, text, NULL, 0, len) != napi_ok) return NULL;
    uint8_t *bytes = malloc(*len + 1);
    if (bytes && napi_get_value_string_utf8(env, text, (char *)bytes, *len + 1, len) != napi_ok) {
        free(bytes);
        return NULL;
    }
    return bytes;
}

/* Calls the function, again with more room if its answer takes that. Answers the room, which has all of it, or NULL. */
static uint8_t *answer(ecma_function function, const uint8_t *text, size_t len, const ecma_options *options, size_t room_len,
                       ecma_outcome *outcome) {
    for (;;) {
        uint8_t *room = malloc(room_len);
        if (!room) return NULL;
        function(text, len, options, room, room_len, outcome);
        if (outcome->needed <= room_len) return room;
        free(room);
        room_len = outcome->needed;
    }
}

/* A string of the bytes. */
static napi_status text_of(napi_env env, const uint8_t *bytes, size_t len, napi_value *text) {
    bool is_ascii = true;
    for (size_t at = 0; at < len && is_ascii; at++) is_ascii = bytes[at] < 128;
    return is_ascii ? napi_create_string_latin1(env, (const char *)bytes, len, text)
                    : napi_create_string_utf8(env, (const char *)bytes, len, text);
}

static bool set_number(napi_env env, napi_value object, const char *name, uint32_t number) {
    napi_value value;
    return napi_create_uint32(env, number, &value) == napi_ok && napi_set_named_property(env, object, name, value) == napi_ok;
}

/* An object that has the outcome, and the answer as `text`. */
static napi_value object_of(napi_env env, const ecma_outcome *outcome, const uint8_t *room) {
    napi_value object, text;
    if (napi_create_object(env, &object) != napi_ok || text_of(env, room, outcome->needed, &text) != napi_ok ||
        napi_set_named_property(env, object, "text", text) != napi_ok ||
        !set_number(env, object, "status", outcome->status) || !set_number(env, object, "goal", outcome->goal) ||
        !set_number(env, object, "start", outcome->start) || !set_number(env, object, "end", outcome->end) ||
        !set_number(env, object, "line", outcome->line) || !set_number(env, object, "column", outcome->column)) {
        return fail(env, "the answer is too long for a string");
    }
    return object;
}

static napi_value call(napi_env env, napi_callback_info info) {
    size_t count = 3;
    napi_value given[3];
    uint32_t which = 0, numbers[OPTIONS];
    if (napi_get_cb_info(env, info, &count, given, NULL, NULL) != napi_ok || count != 3 ||
        napi_get_value_uint32(env, given[0], &which) != napi_ok || which >= sizeof FUNCTIONS / sizeof *FUNCTIONS) {
        return fail(env, "call(function, text, options)");
    }
    for (uint32_t at = 0; at < OPTIONS; at++) {
        napi_value value;
        if (napi_get_element(env, given[2], at, &value) != napi_ok || napi_get_value_uint32(env, value, &numbers[at]) != napi_ok) {
            return fail(env, "options are a list of numbers");
        }
    }
    ecma_options options;
    memcpy(&options, numbers, sizeof options);
    size_t len = 0;
    uint8_t *text = bytes_of(env, given[1], &len);
    if (!text) return fail(env, "a text is a string, for which there is memory");
    ecma_outcome outcome;
    uint8_t *room = answer(FUNCTIONS[which], text, len, &options, len * ROOM[which] + LEAST, &outcome);
    free(text);
    if (!room) return fail(env, "out of memory");
    napi_value object = object_of(env, &outcome, room);
    free(room);
    return object;
}

static napi_value version(napi_env env, napi_callback_info info) {
    (void)info;
    uint8_t room[256];
    napi_value text;
    size_t len = ecma_version(room, sizeof room);
    return text_of(env, room, len < sizeof room ? len : sizeof room, &text) == napi_ok ? text : NULL;
}

NAPI_MODULE_INIT() {
    napi_value made;
    if (napi_create_function(env, "call", NAPI_AUTO_LENGTH, call, NULL, &made) != napi_ok ||
        napi_set_named_property(env, exports, "call", made) != napi_ok ||
        napi_create_function(env, "version", NAPI_AUTO_LENGTH, version, NULL, &made) != napi_ok ||
        napi_set_named_property(env, exports, "version", made) != napi_ok) {
        return NULL;
    }
    return exports;
}
