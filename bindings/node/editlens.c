/* The addon for Node: a class `Session` over the library, by N-API. index.js loads it. */
#include "held.h"

static const struct kind SESSION = {
    .tag = {0x9c4f1a6be0d7435bU, 0x8d21f3c65a7e9b14U}, .close = editlens_session_close, .is_closed = "the session is closed"};

static napi_value answered_by(napi_env env, struct held *held, struct editlens_answer answer) {
    return answered(env, held->at, answer, "part", editlens_session_text);
}

enum { OPEN, RESUME, IMPORT_LEFT, IMPORT_RIGHT, REOPEN, KINDS };

static void open_at(void *at, uint32_t kind, const uint8_t **texts, const size_t *lens) {
    switch (kind) {
    case OPEN: editlens_session_open(at, texts[0], lens[0]); break;
    case RESUME: editlens_session_resume(at, texts[0], lens[0], texts[1], lens[1], texts[2], lens[2], texts[3], lens[3]); break;
    case IMPORT_LEFT: editlens_session_import_left(at, texts[0], lens[0], texts[1], lens[1]); break;
    case IMPORT_RIGHT: editlens_session_import_right(at, texts[0], lens[0], texts[1], lens[1]); break;
    default: editlens_session_reopen(at, texts[0], lens[0]);
    }
}

/* open(0, program), open(1, program, left, complement, right), open(2, program, left), open(3, program, right) or open(4, records): the
   session, as a value that only this addon reads. */
static napi_value open_session(napi_env env, napi_callback_info info) {
    static const size_t wanted[KINDS] = {1, 4, 2, 2, 1};
    size_t count = 5, lens[4], bytes = editlens_session_size();
    const uint8_t *texts[4];
    uint32_t kind = KINDS;
    napi_value given[5];
    napi_get_cb_info(env, info, &count, given, NULL, NULL);
    if (count == 0 || napi_get_value_uint32(env, given[0], &kind) != napi_ok || kind >= KINDS || count != wanted[kind] + 1) {
        napi_throw_type_error(env, NULL, "a kind of opening with its texts is wanted");
        return NULL;
    }
    for (size_t i = 0; i + 1 < count; i++) {
        if (!bytes_of(env, given[i + 1], &texts[i], &lens[i])) {
            return NULL;
        }
        bytes += lens[i];
    }
    struct held *held = new_held(env, &SESSION, editlens_session_size());
    if (held == NULL) {
        return NULL;
    }
    open_at(held->at, kind, texts, lens);
    return value_of(env, held, bytes);
}

static napi_value status(napi_env env, napi_callback_info info) {
    size_t count = 1;
    napi_value given[1];
    napi_get_cb_info(env, info, &count, given, NULL, NULL);
    struct held *held = held_of(env, given[0], &SESSION);
    return held == NULL ? NULL : answered_by(env, held, editlens_session_status(held->at));
}

static napi_value step(napi_env env, napi_callback_info info) {
    size_t count = 2, len;
    const uint8_t *line;
    napi_value given[2];
    napi_get_cb_info(env, info, &count, given, NULL, NULL);
    struct held *held = held_of(env, given[0], &SESSION);
    if (held == NULL || !bytes_of(env, given[1], &line, &len)) {
        return NULL;
    }
    struct editlens_answer answer = editlens_session_step(held->at, line, len);
    if (answer.status == EDITLENS_DONE) {
        count_bytes(env, held, (int64_t)len);
    }
    return answered_by(env, held, answer);
}

static napi_value show(napi_env env, napi_callback_info info) {
    size_t count = 2;
    uint32_t part = UINT32_MAX;
    napi_value given[2];
    napi_get_cb_info(env, info, &count, given, NULL, NULL);
    struct held *held = held_of(env, given[0], &SESSION);
    if (held == NULL) {
        return NULL;
    }
    if (napi_get_value_uint32(env, given[1], &part) != napi_ok) {
        napi_throw_type_error(env, NULL, "the number of a part is wanted");
        return NULL;
    }
    return answered_by(env, held, editlens_session_show(held->at, part));
}

static napi_value close_session(napi_env env, napi_callback_info info) {
    size_t count = 1;
    napi_value given[1];
    napi_get_cb_info(env, info, &count, given, NULL, NULL);
    struct held *held = tagged(env, given[0], &SESSION);
    if (held == NULL) {
        return raise(env, "this is no session");
    }
    let_go(env, held);
    return NULL;
}

NAPI_MODULE_INIT() {
    static const struct call calls[] = {{"open", open_session}, {"status", status}, {"step", step}, {"show", show}, {"close", close_session}};
    return with_calls(env, exports, calls, sizeof calls / sizeof *calls);
}
