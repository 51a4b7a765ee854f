/* What the two addons have in common: a value of JavaScript that holds a session or a hub. It has a tag, so that no other value is taken for
   it, and Node is told how much memory it holds. */
#ifndef EDITLENS_HELD_H
#define EDITLENS_HELD_H

#include "editlens.h"

#include <node_api.h>
#include <stdlib.h>

/* A session or a hub: the tag of its values, how it is closed, and what is said of one that is closed. */
struct kind {
    napi_type_tag tag;
    uint32_t (*close)(void *at);
    const char *is_closed;
};

struct held {
    const struct kind *kind;
    void *at;        /* NULL when it is closed */
    int64_t counted; /* how many bytes Node is told of */
};

static void *raise(napi_env env, const char *why) {
    bool is_pending = false;
    if (napi_is_exception_pending(env, &is_pending) != napi_ok || !is_pending) {
        napi_throw_error(env, NULL, why);
    }
    return NULL;
}

/* Tells Node of more bytes that are held, or of fewer. What is counted is what can be seen from here: the room of a session, the texts that it
   was opened with, and the lines that it accepted. */
static void count_bytes(napi_env env, struct held *held, int64_t more) {
    int64_t sum;
    held->counted += more;
    napi_adjust_external_memory(env, more, &sum);
}

static void let_go(napi_env env, struct held *held) {
    if (held->at != NULL) {
        held->kind->close(held->at);
        free(held->at);
        held->at = NULL;
        count_bytes(env, held, -held->counted);
    }
}

static void finalize(napi_env env, void *data, void *hint) {
    (void)hint;
    let_go(env, data);
    free(data);
}

/* What a value holds, also if it is closed; or NULL, if it is no value of this kind. */
static struct held *tagged(napi_env env, napi_value value, const struct kind *kind) {
    struct held *held = NULL;
    napi_valuetype type;
    bool is_tagged = false;
    if (napi_typeof(env, value, &type) != napi_ok || type != napi_external) {
        return NULL;
    }
    if (napi_check_object_type_tag(env, value, &kind->tag, &is_tagged) != napi_ok || !is_tagged) {
        return NULL;
    }
    return napi_get_value_external(env, value, (void **)&held) == napi_ok ? held : NULL;
}

/* What a value holds that is not closed; or NULL, when an error has been raised. */
static struct held *held_of(napi_env env, napi_value value, const struct kind *kind) {
    struct held *held = tagged(env, value, kind);
    if (held == NULL || held->at == NULL) {
        return raise(env, kind->is_closed);
    }
    return held;
}

/* Room for a session or a hub of a size, which nothing is in yet; or NULL, when an error has been raised. */
static struct held *new_held(napi_env env, const struct kind *kind, size_t size) {
    struct held *held = malloc(sizeof *held);
    void *at = calloc(1, size);
    if (held == NULL || at == NULL) {
        free(held);
        free(at);
        return raise(env, "memory ran out");
    }
    *held = (struct held){.kind = kind, .at = at};
    return held;
}

/* The value that holds what was opened, with its tag; or NULL, when that is closed again and an error has been raised. */
static napi_value value_of(napi_env env, struct held *held, size_t bytes) {
    napi_value value;
    count_bytes(env, held, (int64_t)bytes);
    if (napi_create_external(env, held, finalize, NULL, &value) != napi_ok) {
        finalize(env, held, NULL);
        return raise(env, "memory ran out");
    }
    if (napi_type_tag_object(env, value, &held->kind->tag) != napi_ok) {
        let_go(env, held);
        return raise(env, "memory ran out");
    }
    return value;
}

/* The bytes of an argument, which is a Buffer. */
static int bytes_of(napi_env env, napi_value value, const uint8_t **bytes, size_t *len) {
    bool is_buffer = false;
    void *data = NULL;
    napi_is_buffer(env, value, &is_buffer);
    if (!is_buffer || napi_get_buffer_info(env, value, &data, len) != napi_ok) {
        napi_throw_type_error(env, NULL, "a Buffer is wanted");
        return 0;
    }
    *bytes = data;
    return 1;
}

static int put(napi_env env, napi_value object, const char *name, double number) {
    napi_value value;
    return napi_create_double(env, number, &value) == napi_ok && napi_set_named_property(env, object, name, value) == napi_ok;
}

/* An answer as an object, with the text that answers the last call, which this call writes; or NULL, when an error has been raised. */
static napi_value answered(napi_env env, void *at, struct editlens_answer answer, const char *part,
                           struct editlens_answer (*text_of)(void *at, uint8_t *out, size_t out_len)) {
    napi_value object, text;
    void *data = NULL;
    size_t len = text_of(at, NULL, 0).len;
    if (napi_create_object(env, &object) != napi_ok || napi_create_buffer(env, len, &data, &text) != napi_ok) {
        return raise(env, "memory ran out");
    }
    text_of(at, data, len);
    int is_whole = put(env, object, "status", answer.status) && put(env, object, "cause", answer.cause)
        && put(env, object, "number", (double)answer.number) && put(env, object, part, (double)answer.part)
        && put(env, object, "at", (double)answer.at) && napi_set_named_property(env, object, "text", text) == napi_ok;
    return is_whole ? object : raise(env, "memory ran out");
}

/* A call of the addon by its name. */
struct call {
    const char *name;
    napi_callback call;
};

/* The exports of an addon, with these calls; or NULL, when an error has been raised. */
static napi_value with_calls(napi_env env, napi_value exports, const struct call *calls, size_t count) {
    if (editlens_version() != EDITLENS_VERSION) {
        return raise(env, "libeditlens has another interface than this addon is compiled for");
    }
    for (size_t i = 0; i < count; i++) {
        napi_value function;
        if (napi_create_function(env, calls[i].name, NAPI_AUTO_LENGTH, calls[i].call, NULL, &function) != napi_ok
            || napi_set_named_property(env, exports, calls[i].name, function) != napi_ok) {
            return raise(env, "memory ran out");
        }
    }
    return exports;
}

#endif
