/* The addon for Node with hubs: a class `Hub` over the library, by N-API. hub.js loads it. */
#include "held.h"

static const struct kind HUB = {
    .tag = {0x35e8b07cd4914f2aU, 0xb6470d9e1c82fa53U}, .close = editlens_hub_close, .is_closed = "the hub is closed"};

static napi_value answered_by(napi_env env, struct held *held, struct editlens_answer answer) {
    return answered(env, held->at, answer, "view", editlens_hub_text);
}

/* open(programs), or open(programs, state) for a hub that goes on from the texts of a state: the hub, as a value that only this addon reads. */
static napi_value open_hub(napi_env env, napi_callback_info info) {
    size_t count = 2, lens[2], bytes = editlens_hub_size();
    const uint8_t *texts[2];
    napi_value given[2];
    napi_get_cb_info(env, info, &count, given, NULL, NULL);
    if (count != 1 && count != 2) {
        napi_throw_type_error(env, NULL, "programs are wanted, and no more than the texts of a state");
        return NULL;
    }
    for (size_t i = 0; i < count; i++) {
        if (!bytes_of(env, given[i], &texts[i], &lens[i])) {
            return NULL;
        }
        bytes += lens[i];
    }
    struct held *held = new_held(env, &HUB, editlens_hub_size());
    if (held == NULL) {
        return NULL;
    }
    if (count == 2) {
        editlens_hub_resume(held->at, texts[0], lens[0], texts[1], lens[1]);
    } else {
        editlens_hub_open(held->at, texts[0], lens[0]);
    }
    return value_of(env, held, bytes);
}

static napi_value status(napi_env env, napi_callback_info info) {
    size_t count = 1;
    napi_value given[1];
    napi_get_cb_info(env, info, &count, given, NULL, NULL);
    struct held *held = held_of(env, given[0], &HUB);
    return held == NULL ? NULL : answered_by(env, held, editlens_hub_status(held->at));
}

static napi_value step(napi_env env, napi_callback_info info) {
    size_t count = 2, len;
    const uint8_t *line;
    napi_value given[2];
    napi_get_cb_info(env, info, &count, given, NULL, NULL);
    struct held *held = held_of(env, given[0], &HUB);
    if (held == NULL || !bytes_of(env, given[1], &line, &len)) {
        return NULL;
    }
    struct editlens_answer answer = editlens_hub_step(held->at, line, len);
    if (answer.status == EDITLENS_DONE) {
        count_bytes(env, held, (int64_t)len);
    }
    return answered_by(env, held, answer);
}

static napi_value show(napi_env env, napi_callback_info info) {
    size_t count = 3;
    uint32_t part = UINT32_MAX, view = UINT32_MAX;
    napi_value given[3];
    napi_get_cb_info(env, info, &count, given, NULL, NULL);
    struct held *held = held_of(env, given[0], &HUB);
    if (held == NULL) {
        return NULL;
    }
    if (napi_get_value_uint32(env, given[1], &part) != napi_ok || napi_get_value_uint32(env, given[2], &view) != napi_ok) {
        napi_throw_type_error(env, NULL, "the numbers of a part and of a view are wanted");
        return NULL;
    }
    return answered_by(env, held, editlens_hub_show(held->at, part, view));
}

static napi_value close_hub(napi_env env, napi_callback_info info) {
    size_t count = 1;
    napi_value given[1];
    napi_get_cb_info(env, info, &count, given, NULL, NULL);
    struct held *held = tagged(env, given[0], &HUB);
    if (held == NULL) {
        return raise(env, "this is no hub");
    }
    let_go(env, held);
    return NULL;
}

NAPI_MODULE_INIT() {
    static const struct call calls[] = {{"open", open_hub}, {"status", status}, {"step", step}, {"show", show}, {"close", close_hub}};
    return with_calls(env, exports, calls, sizeof calls / sizeof *calls);
}
