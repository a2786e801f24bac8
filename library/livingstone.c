/* The C side of the library: the memory of a model and its sessions, and pointers to what the proved side holds.
 *
 * The proved side takes memory by three functions and is told nothing of whose it is. Here each model has a pool: what is taken
 * while a call works for the model is the pool's, and goes back when the model and its last session are closed. Some of it the
 * proved side never gives back, since it takes a compiled model to stand for good.
 *
 * docs/EMBEDDING.md says what is trusted of this file. */
#include "livingstone.h"

#include <stdlib.h>

/* What C holds for the proved side: a pointer that owns something, or null. */
struct model_handle {
    void *held;
};

struct session_handle {
    void *held;
};

struct refusal {
    uint32_t number;
    uint64_t line;
};

/* The proved side. */
uint32_t lv_open_model(struct model_handle *model, const void *text, size_t length, struct refusal *refusal);
void lv_close_model(struct model_handle *model);
uint32_t lv_check(struct model_handle *model, const void *certificate, size_t length, uint64_t *bad_line);
uint32_t lv_open_session(struct model_handle *model, struct session_handle *session);
uint32_t lv_answer(struct session_handle *session, const void *line, size_t length, size_t *reply_length);
void lv_copy_reply(struct session_handle *session, void *out, size_t length);
bool lv_has_ended(struct session_handle *session);
void lv_close_session(struct session_handle *session);

/* A block of a pool. What is asked for stands behind it, at a multiple of 16 bytes. */
struct block {
    struct block *before;
    struct block *behind;
    size_t size;
    size_t unused;
};

_Static_assert(sizeof(struct block) % 16 == 0, "what stands behind a block begins at a multiple of 16");

/* The memory of a model and its sessions. */
struct pool {
    struct block first; /* its blocks, in a ring */
    size_t taken;
    size_t most;
    size_t holders; /* the model, and each session */
};

struct livingstone_model {
    struct pool *pool;
    struct model_handle handle;
};

struct livingstone_session {
    struct pool *pool;
    struct session_handle handle;
    char *reply;
    size_t room;
    bool is_spent;
};

/* The pool for which this thread works. */
static _Thread_local struct pool *at_work;

static void put_in(struct pool *pool, struct block *block)
{
    block->before = &pool->first;
    block->behind = pool->first.behind;
    block->behind->before = block;
    pool->first.behind = block;
}

static void take_out(struct block *block)
{
    block->before->behind = block->behind;
    block->behind->before = block->before;
}

/* Whether the pool may have so many bytes more. */
static bool has_room(const struct pool *pool, size_t more)
{
    return more <= SIZE_MAX - sizeof(struct block) && more <= pool->most - pool->taken;
}

static void *pool_take(struct pool *pool, size_t size)
{
    if (!has_room(pool, size))
        return NULL;
    struct block *block = malloc(sizeof *block + size);
    if (block == NULL)
        return NULL;
    block->size = size;
    put_in(pool, block);
    pool->taken += size;
    return block + 1;
}

static void pool_give(struct pool *pool, void *at)
{
    struct block *block = (struct block *)at - 1;
    take_out(block);
    pool->taken -= block->size;
    free(block);
}

static void *pool_resize(struct pool *pool, void *at, size_t size)
{
    struct block *block = (struct block *)at - 1;
    size_t old = block->size;
    if (size > old && !has_room(pool, size - old))
        return NULL;
    take_out(block);
    struct block *moved = realloc(block, sizeof *block + size);
    if (moved == NULL) {
        put_in(pool, block);
        return NULL;
    }
    moved->size = size;
    put_in(pool, moved);
    pool->taken = pool->taken - old + size;
    return moved + 1;
}

static struct pool *pool_new(size_t most)
{
    struct pool *pool = malloc(sizeof *pool);
    if (pool == NULL)
        return NULL;
    pool->first.before = &pool->first;
    pool->first.behind = &pool->first;
    pool->taken = 0;
    pool->most = most == 0 ? SIZE_MAX : most;
    pool->holders = 1;
    return pool;
}

/* One holder lets go; with the last, all memory goes back. */
static void pool_let_go(struct pool *pool)
{
    pool->holders -= 1;
    if (pool->holders > 0)
        return;
    while (pool->first.behind != &pool->first)
        pool_give(pool, pool->first.behind + 1);
    free(pool);
}

/* What the proved side takes memory by: whether there is some, and where. Where there is none, the pointer owns nothing, and is
 * not null. */
struct tried {
    bool is_there;
    void *at;
};

static char nowhere;

static struct tried tried(void *at)
{
    struct tried answer = {at != NULL, at != NULL ? at : (void *)&nowhere};
    return answer;
}

struct tried rattle_alloc(size_t size, size_t alignment)
{
    (void)alignment; /* at most 16 */
    return tried(pool_take(at_work, size));
}

struct tried rattle_realloc(void *at, size_t kept, size_t size, size_t alignment)
{
    (void)kept;
    (void)alignment;
    return tried(pool_resize(at_work, at, size));
}

void rattle_dealloc(void *at)
{
    pool_give(at_work, at);
}

/* The proved side takes no null, not even for nothing. */
static const void *given(const void *at, size_t length)
{
    return length > 0 ? at : &nowhere;
}

enum livingstone_end livingstone_open_model(const void *text, size_t length, size_t most, livingstone_model **model,
                                            livingstone_refusal *refusal)
{
    *model = NULL;
    struct pool *pool = pool_new(most);
    livingstone_model *made = pool == NULL ? NULL : malloc(sizeof *made);
    if (made == NULL) {
        free(pool);
        return LIVINGSTONE_OUT_OF_MEMORY;
    }
    struct refusal told = {0, 0};
    made->pool = pool;
    made->handle.held = NULL;
    at_work = pool;
    uint32_t end = lv_open_model(&made->handle, given(text, length), length, &told);
    at_work = NULL;
    if (refusal != NULL) {
        refusal->number = told.number;
        refusal->line = told.line;
    }
    if (end != LIVINGSTONE_DONE) {
        pool_let_go(pool);
        free(made);
        return (enum livingstone_end)end;
    }
    *model = made;
    return LIVINGSTONE_DONE;
}

void livingstone_close_model(livingstone_model *model)
{
    if (model == NULL)
        return;
    at_work = model->pool;
    lv_close_model(&model->handle);
    at_work = NULL;
    pool_let_go(model->pool);
    free(model);
}

enum livingstone_end livingstone_check(livingstone_model *model, const void *certificate, size_t length,
                                       livingstone_refusal *refusal)
{
    uint64_t bad_line = 0;
    at_work = model->pool;
    uint32_t end = lv_check(&model->handle, given(certificate, length), length, &bad_line);
    at_work = NULL;
    if (refusal != NULL) {
        refusal->number = 0;
        refusal->line = bad_line;
    }
    return (enum livingstone_end)end;
}

enum livingstone_end livingstone_open_session(livingstone_model *model, livingstone_session **session)
{
    *session = NULL;
    livingstone_session *made = malloc(sizeof *made);
    if (made == NULL)
        return LIVINGSTONE_OUT_OF_MEMORY;
    made->pool = model->pool;
    made->handle.held = NULL;
    made->reply = NULL;
    made->room = 0;
    made->is_spent = false;
    at_work = model->pool;
    uint32_t end = lv_open_session(&model->handle, &made->handle);
    at_work = NULL;
    if (end != LIVINGSTONE_DONE) {
        free(made);
        return (enum livingstone_end)end;
    }
    made->pool->holders += 1;
    *session = made;
    return LIVINGSTONE_DONE;
}

/* Room for a reply of so many bytes. */
static bool make_room(livingstone_session *session, size_t length)
{
    if (length <= session->room)
        return true;
    char *moved = realloc(session->reply, length);
    if (moved == NULL)
        return false;
    session->reply = moved;
    session->room = length;
    return true;
}

enum livingstone_end livingstone_answer(livingstone_session *session, const void *line, size_t length,
                                        livingstone_reply *reply)
{
    size_t reply_length = 0;
    reply->text = "";
    reply->length = 0;
    if (session->is_spent)
        return LIVINGSTONE_OUT_OF_MEMORY;
    at_work = session->pool;
    uint32_t end = lv_answer(&session->handle, given(line, length), length, &reply_length);
    if (end != LIVINGSTONE_DONE || !make_room(session, reply_length)) {
        at_work = NULL;
        session->is_spent = true;
        return LIVINGSTONE_OUT_OF_MEMORY;
    }
    if (reply_length > 0) {
        lv_copy_reply(&session->handle, session->reply, reply_length);
        reply->text = session->reply;
        reply->length = reply_length;
    }
    at_work = NULL;
    return LIVINGSTONE_DONE;
}

bool livingstone_has_ended(livingstone_session *session)
{
    at_work = session->pool;
    bool has_ended = lv_has_ended(&session->handle);
    at_work = NULL;
    return has_ended;
}

void livingstone_close_session(livingstone_session *session)
{
    if (session == NULL)
        return;
    at_work = session->pool;
    lv_close_session(&session->handle);
    at_work = NULL;
    pool_let_go(session->pool);
    free(session->reply);
    free(session);
}
