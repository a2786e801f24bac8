/* Livingstone as a library: models, sessions over them one line at a time, and certificates.
 *
 * A model and its sessions stay on the thread that opened the model. Models opened by different threads know nothing of one
 * another. Nothing is kept beside what these calls hand out, and none of them writes to a file, stops the program or blocks.
 *
 * A call ends with LIVINGSTONE_DONE, LIVINGSTONE_REFUSED or LIVINGSTONE_OUT_OF_MEMORY. docs/EMBEDDING.md says what each call
 * promises, and what of it is proved. */
#ifndef LIVINGSTONE_H
#define LIVINGSTONE_H

#include <stdbool.h>
#include <stddef.h>
#include <stdint.h>

#ifdef __cplusplus
extern "C" {
#endif

/* How a call ended. */
enum livingstone_end {
    LIVINGSTONE_DONE = 0,          /* what was asked for is done */
    LIVINGSTONE_REFUSED = 1,       /* the text is no model, or no valid certificate */
    LIVINGSTONE_OUT_OF_MEMORY = 2  /* memory was wanting */
};

/* A model, compiled; and a session over it. */
typedef struct livingstone_model livingstone_model;
typedef struct livingstone_session livingstone_session;

/* Why a text is refused. Of a model: the number of the reason, as in docs/ERRORS.md, and the line, counted from 1; line 0 of a
 * text over its limit. Of a certificate: number 0, and the first bad line. */
typedef struct livingstone_refusal {
    uint32_t number;
    uint64_t line;
} livingstone_refusal;

/* The text of a reply: lines, each with its end, or nothing. No zero byte stands behind it. */
typedef struct livingstone_reply {
    const char *text;
    size_t length;
} livingstone_reply;

/* Opens the model that a text gives. It takes at most `most` bytes of memory for itself and all its sessions, or as many as
 * there are where `most` is 0. Where the call isn't DONE, *model is null. */
enum livingstone_end livingstone_open_model(const void *text, size_t length, size_t most, livingstone_model **model,
                                            livingstone_refusal *refusal);

/* Closes a model. Its sessions go on; the memory that they share goes back with the last of them. Null is let pass. */
void livingstone_close_model(livingstone_model *model);

/* Judges the text of a certificate over a model: DONE where it is valid. */
enum livingstone_end livingstone_check(livingstone_model *model, const void *certificate, size_t length,
                                       livingstone_refusal *refusal);

/* Opens a session at its start over a model. Where the call isn't DONE, *session is null. */
enum livingstone_end livingstone_open_session(livingstone_model *model, livingstone_session **session);

/* Does what a line asks for, and answers the text of the reply, which stays where it is until the session's next call. The line
 * is given without its end. After OUT_OF_MEMORY the session answers so for good. */
enum livingstone_end livingstone_answer(livingstone_session *session, const void *line, size_t length,
                                        livingstone_reply *reply);

/* Whether a `quit` was accepted: later lines get no reply and change nothing. */
bool livingstone_has_ended(livingstone_session *session);

/* Closes a session. Null is let pass. */
void livingstone_close_session(livingstone_session *session);

#ifdef __cplusplus
}
#endif

#endif
