/* cssmin for node, by its Node-API. Only program.mjs calls it.

   minify(sheet, budget)         the text
   minifyAsync(sheet, budget)    a Promise of it; the work is done on another thread
   compare(left, right, budget)  the answer

   Sheets and selectors are UTF-8 in a Uint8Array. Texts are strings. If a call ends otherwise than with CSSMIN_DONE, the error has the
   status, and `kind` and `offset` if the sheet is refused. */
#include "cssmin.h"

#include <node_api.h>
#include <stdlib.h>
#include <string.h>

/* Ends the call with what node says if a step of it fails. */
#define OR_THROW(step) do { if ((step) != napi_ok) return throw_last(env); } while (0)

struct bytes {
    uint8_t *data;
    size_t length;
};

/* A sheet on its way. The sheet is a copy: a caller may change its own while another thread reads. */
struct task {
    struct bytes sheet;
    uint8_t *text; /* as long as the sheet */
    uint32_t budget;
    uint32_t status;
    struct cssmin_told told;
    napi_async_work work;
    napi_deferred promise;
};

static napi_value throw_last(napi_env env) {
    const napi_extended_error_info *info = NULL;
    bool pending = false;
    napi_get_last_error_info(env, &info);
    const char *why = info && info->error_message ? info->error_message : "wrong argument";
    if (napi_is_exception_pending(env, &pending) == napi_ok && !pending) napi_throw_type_error(env, NULL, why);
    return NULL;
}

/* The bytes of a Uint8Array, in place. */
static napi_status bytes_of(napi_env env, napi_value value, struct bytes *bytes) {
    napi_typedarray_type type;
    void *data;
    napi_status status = napi_get_typedarray_info(env, value, &type, &bytes->length, &data, NULL, NULL);
    if (status == napi_ok && type != napi_uint8_array) status = napi_invalid_arg;
    /* an empty array may lie nowhere */
    bytes->data = status == napi_ok && data ? data : (uint8_t *)"";
    return status;
}

/* A copy, which free() gives back. Its data is null if there is no memory. */
static struct bytes copy_of(struct bytes bytes) {
    struct bytes copy = {malloc(bytes.length + 1), bytes.length};
    if (copy.data) memcpy(copy.data, bytes.data, bytes.length);
    return copy;
}

/* What a call that did not end with CSSMIN_DONE throws. */
static napi_value error_of(napi_env env, uint32_t status, const struct cssmin_told *told) {
    napi_value text, error, number;
    napi_create_string_utf8(env, status == CSSMIN_REFUSED ? "refused" : "out of memory", NAPI_AUTO_LENGTH, &text);
    napi_create_error(env, NULL, text, &error);
    napi_create_uint32(env, status, &number);
    napi_set_named_property(env, error, "status", number);
    if (status == CSSMIN_REFUSED) {
        napi_create_uint32(env, told->fault_kind, &number);
        napi_set_named_property(env, error, "kind", number);
        napi_create_uint32(env, told->fault_at, &number);
        napi_set_named_property(env, error, "offset", number);
    }
    return error;
}

static void free_task(struct task *task) {
    if (!task) return;
    free(task->sheet.data);
    free(task->text);
    free(task);
}

/* A task for these bytes, or null if there is no memory. */
static struct task *new_task(struct bytes sheet, uint32_t budget) {
    struct task *task = calloc(1, sizeof *task);
    if (!task) return NULL;
    task->sheet = copy_of(sheet);
    task->text = malloc(sheet.length + 1);
    task->budget = budget;
    if (task->sheet.data && task->text) return task;
    free_task(task);
    return NULL;
}

static void perform(napi_env env, void *data) {
    struct task *task = data;
    (void)env;
    task->status = cssmin_min(task->sheet.data, task->sheet.length, task->budget,
                              task->text, task->sheet.length, &task->told);
}

/* The text of a task that was performed; or false, and the error. */
static bool result_of(napi_env env, const struct task *task, napi_value *result) {
    uint32_t status = task->status;
    if (status == CSSMIN_DONE) {
        if (napi_create_string_utf8(env, (const char *)task->text, task->told.length, result) == napi_ok) return true;
        status = CSSMIN_NO_MEMORY;
    }
    *result = error_of(env, status, &task->told);
    return false;
}

/* The words of minify and of minifyAsync. */
static napi_status words_of(napi_env env, napi_callback_info info, struct bytes *sheet, uint32_t *budget) {
    size_t count = 2;
    napi_value words[2];
    napi_status status = napi_get_cb_info(env, info, &count, words, NULL, NULL);
    if (status == napi_ok) status = bytes_of(env, words[0], sheet);
    if (status == napi_ok) status = napi_get_value_uint32(env, words[1], budget);
    return status;
}

static napi_value minify(napi_env env, napi_callback_info info) {
    struct bytes sheet;
    uint32_t budget;
    napi_value result;
    OR_THROW(words_of(env, info, &sheet, &budget));
    struct task *task = new_task(sheet, budget);
    if (!task) {
        napi_throw(env, error_of(env, CSSMIN_NO_MEMORY, NULL));
        return NULL;
    }
    perform(env, task);
    bool made = result_of(env, task, &result);
    free_task(task);
    if (made) return result;
    napi_throw(env, result);
    return NULL;
}

static void settle(napi_env env, napi_status status, void *data) {
    struct task *task = data;
    napi_value result;
    if (status != napi_ok) task->status = CSSMIN_NO_MEMORY;
    if (result_of(env, task, &result)) napi_resolve_deferred(env, task->promise, result);
    else napi_reject_deferred(env, task->promise, result);
    napi_delete_async_work(env, task->work);
    free_task(task);
}

static napi_value minify_async(napi_env env, napi_callback_info info) {
    struct bytes sheet;
    uint32_t budget;
    napi_value promise, name;
    OR_THROW(words_of(env, info, &sheet, &budget));
    OR_THROW(napi_create_string_utf8(env, "cssmin", NAPI_AUTO_LENGTH, &name));
    struct task *task = new_task(sheet, budget);
    if (!task) {
        napi_throw(env, error_of(env, CSSMIN_NO_MEMORY, NULL));
        return NULL;
    }
    if (napi_create_async_work(env, NULL, name, perform, settle, task, &task->work) != napi_ok) {
        free_task(task);
        return throw_last(env);
    }
    if (napi_create_promise(env, &task->promise, &promise) != napi_ok
        || napi_queue_async_work(env, task->work) != napi_ok) {
        napi_delete_async_work(env, task->work);
        free_task(task);
        return throw_last(env);
    }
    return promise;
}

static napi_value compare(napi_env env, napi_callback_info info) {
    size_t count = 3, room = 1024;
    napi_value words[3], result;
    struct bytes left, right;
    uint32_t budget;
    struct cssmin_told told;
    OR_THROW(napi_get_cb_info(env, info, &count, words, NULL, NULL));
    OR_THROW(bytes_of(env, words[0], &left));
    OR_THROW(bytes_of(env, words[1], &right));
    OR_THROW(napi_get_value_uint32(env, words[2], &budget));
    left = copy_of(left);
    right = copy_of(right);
    uint8_t *text = malloc(room);
    uint32_t status = CSSMIN_NO_MEMORY;
    while (left.data && right.data && text) {
        status = cssmin_cmp(left.data, left.length, right.data, right.length, budget, text, room, &told);
        if (status != CSSMIN_NO_ROOM) break;
        status = CSSMIN_NO_MEMORY;
        room = told.length;
        free(text);
        text = malloc(room);
    }
    free(left.data);
    free(right.data);
    if (status == CSSMIN_DONE && napi_create_string_utf8(env, (const char *)text, told.length, &result) != napi_ok)
        status = CSSMIN_NO_MEMORY;
    free(text);
    if (status == CSSMIN_DONE) return result;
    napi_throw(env, error_of(env, CSSMIN_NO_MEMORY, NULL));
    return NULL;
}

NAPI_MODULE_INIT() {
    const napi_property_descriptor calls[] = {
        {"minify", NULL, minify, NULL, NULL, NULL, napi_enumerable, NULL},
        {"minifyAsync", NULL, minify_async, NULL, NULL, NULL, napi_enumerable, NULL},
        {"compare", NULL, compare, NULL, NULL, NULL, napi_enumerable, NULL},
    };
    OR_THROW(napi_define_properties(env, exports, sizeof calls / sizeof *calls, calls));
    return exports;
}
