/* For tests: an addon that is compiled with `-include` of this file is refused each buffer that it wants. */
#include <node_api.h>

#define napi_create_buffer(env, len, data, value) ((void)(env), (void)(len), (void)(data), (void)(value), napi_generic_failure)
