/* Drives the library as the program is driven, so that what they write can be compared.
 *
 *   embedding run MODEL SESSION..       a session over the model for each file, their lines taken in turns; writes what each
 *                                       session replied, one session behind the other
 *   embedding check MODEL CERTIFICATE   writes `valid` or `invalid LINE`
 *   embedding scarce MODEL SESSION      the same session with ever more memory, until it suffices
 *
 * A refused model is told on standard error, with status 3. */
#include "livingstone.h"

#include <stdio.h>
#include <stdlib.h>
#include <string.h>

enum { MOST_SESSIONS = 16 };

struct bytes {
    char *at;
    size_t length;
};

/* A session, the lines that it was not asked yet, and what it replied. */
struct talk {
    livingstone_session *session;
    struct bytes lines;
    size_t asked;
    struct bytes replies;
};

static void must(bool holds, const char *what)
{
    if (!holds) {
        fprintf(stderr, "embedding: %s\n", what);
        exit(1);
    }
}

static struct bytes read_file(const char *name)
{
    FILE *file = fopen(name, "rb");
    must(file != NULL, name);
    struct bytes read = {NULL, 0};
    size_t room = 0;
    for (;;) {
        if (read.length == room) {
            room = room == 0 ? 4096 : 2 * room;
            read.at = realloc(read.at, room);
            must(read.at != NULL, "no memory for a file");
        }
        size_t n = fread(read.at + read.length, 1, room - read.length, file);
        if (n == 0)
            break;
        read.length += n;
    }
    fclose(file);
    return read;
}

static void add(struct bytes *to, livingstone_reply reply)
{
    if (reply.length == 0)
        return;
    to->at = realloc(to->at, to->length + reply.length);
    must(to->at != NULL, "no memory for replies");
    memcpy(to->at + to->length, reply.text, reply.length);
    to->length += reply.length;
}

/* Asks the next line, if there is one. */
static enum livingstone_end ask_next(struct talk *talk, bool *went_on)
{
    *went_on = talk->asked < talk->lines.length && !livingstone_has_ended(talk->session);
    if (!*went_on)
        return LIVINGSTONE_DONE;
    const char *line = talk->lines.at + talk->asked;
    const char *end = memchr(line, '\n', talk->lines.length - talk->asked);
    size_t length = end != NULL ? (size_t)(end - line) : talk->lines.length - talk->asked;
    talk->asked += length + (end != NULL);
    /* To the program a carriage return belongs to the line's end. */
    if (length > 0 && line[length - 1] == '\r')
        length -= 1;
    livingstone_reply reply;
    enum livingstone_end ended = livingstone_answer(talk->session, line, length, &reply);
    add(&talk->replies, reply);
    return ended;
}

static livingstone_model *open_model(const char *name)
{
    struct bytes text = read_file(name);
    livingstone_model *model = NULL;
    livingstone_refusal refusal;
    enum livingstone_end ended = livingstone_open_model(text.at, text.length, 0, &model, &refusal);
    free(text.at);
    if (ended == LIVINGSTONE_REFUSED) {
        must(model == NULL, "a refused model is none");
        fprintf(stderr, "model %llu M%02u\n", (unsigned long long)refusal.line, (unsigned)refusal.number);
        exit(3);
    }
    must(ended == LIVINGSTONE_DONE, "no memory for the model");
    return model;
}

static int run(const char *model_name, int sessions, char **names)
{
    struct talk talks[MOST_SESSIONS] = {0};
    must(sessions <= MOST_SESSIONS, "too many sessions");
    livingstone_model *model = open_model(model_name);
    for (int i = 0; i < sessions; i++) {
        talks[i].lines = read_file(names[i]);
        must(livingstone_open_session(model, &talks[i].session) == LIVINGSTONE_DONE, "no memory for a session");
    }
    /* Sessions go on when their model is closed. */
    livingstone_close_model(model);
    for (bool goes_on = true; goes_on;) {
        goes_on = false;
        for (int i = 0; i < sessions; i++) {
            bool went_on;
            must(ask_next(&talks[i], &went_on) == LIVINGSTONE_DONE, "no memory for a line");
            goes_on = goes_on || went_on;
        }
    }
    for (int i = 0; i < sessions; i++) {
        fwrite(talks[i].replies.at, 1, talks[i].replies.length, stdout);
        livingstone_close_session(talks[i].session);
        free(talks[i].lines.at);
        free(talks[i].replies.at);
    }
    return 0;
}

static int check(const char *model_name, const char *name)
{
    livingstone_model *model = open_model(model_name);
    struct bytes certificate = read_file(name);
    livingstone_refusal refusal;
    enum livingstone_end ended = livingstone_check(model, certificate.at, certificate.length, &refusal);
    must(ended != LIVINGSTONE_OUT_OF_MEMORY, "no memory for the certificate");
    if (ended == LIVINGSTONE_DONE)
        puts("valid");
    else
        printf("invalid %llu\n", (unsigned long long)refusal.line);
    free(certificate.at);
    livingstone_close_model(model);
    return ended == LIVINGSTONE_DONE ? 0 : 9;
}

/* A session within so many bytes: whether they suffice. Where they don't, the session says so for good. */
static bool suffices(struct bytes text, struct bytes lines, size_t most)
{
    livingstone_model *model;
    enum livingstone_end ended = livingstone_open_model(text.at, text.length, most, &model, NULL);
    if (ended != LIVINGSTONE_DONE) {
        must(ended == LIVINGSTONE_OUT_OF_MEMORY && model == NULL, "a model that lacks memory is none");
        return false;
    }
    struct talk talk = {NULL, lines, 0, {NULL, 0}};
    ended = livingstone_open_session(model, &talk.session);
    for (bool goes_on = ended == LIVINGSTONE_DONE; goes_on && ended == LIVINGSTONE_DONE;)
        ended = ask_next(&talk, &goes_on);
    must(ended != LIVINGSTONE_REFUSED, "no line is refused by its end");
    if (ended == LIVINGSTONE_OUT_OF_MEMORY && talk.session != NULL) {
        livingstone_reply reply;
        for (int i = 0; i < 3; i++) {
            must(livingstone_answer(talk.session, "time", 4, &reply) == LIVINGSTONE_OUT_OF_MEMORY, "want of memory stays");
            must(reply.length == 0, "nothing is replied for want of memory");
        }
    }
    livingstone_close_session(talk.session);
    livingstone_close_model(model);
    free(talk.replies.at);
    return ended == LIVINGSTONE_DONE;
}

static int scarce(const char *model_name, const char *session_name)
{
    struct bytes text = read_file(model_name), lines = read_file(session_name);
    size_t most = 16, short_of = 0;
    while (!suffices(text, lines, most)) {
        short_of += 1;
        most += most / 16 + 1;
        must(most < (size_t)1 << 30, "a gigabyte suffices");
    }
    must(short_of > 20, "little memory is too little");
    free(text.at);
    free(lines.at);
    puts("enough");
    return 0;
}

int main(int words, char **word)
{
    if (words >= 4 && strcmp(word[1], "run") == 0)
        return run(word[2], words - 3, word + 3);
    if (words == 4 && strcmp(word[1], "check") == 0)
        return check(word[2], word[3]);
    if (words == 4 && strcmp(word[1], "scarce") == 0)
        return scarce(word[2], word[3]);
    fputs("usage: embedding run MODEL SESSION.., check MODEL CERTIFICATE, scarce MODEL SESSION\n", stderr);
    return 2;
}
