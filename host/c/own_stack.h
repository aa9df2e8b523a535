/*
 * The trial of the command `luck` (luck.c), on a thread with a stack of its own: it takes up to 140 KiB (include/luck.h), more than a
 * small `ulimit -s` gives the program itself.
 */
#ifndef LUCK_OWN_STACK_H
#define LUCK_OWN_STACK_H

#include "luck.h"

#include <pthread.h>

enum { OWN_STACK = 1024 * 1024 };

/* The arguments of luck_gsub_trial, and its answer. */
typedef struct {
    uint32_t version;
    const uint8_t *pattern;
    size_t pattern_len;
    const uint8_t *replacement;
    size_t replacement_len;
    const uint8_t *subject;
    size_t subject_len;
    uint32_t budget;
    uint8_t *output;
    size_t room;
    luck_trial found;
} gsub_call;

static void *call_gsub(void *given)
{
    gsub_call *call = (gsub_call *)given;
    call->found = luck_gsub_trial(call->version, call->pattern, call->pattern_len, call->replacement, call->replacement_len,
                                  call->subject, call->subject_len, call->budget, call->output, call->room);
    return NULL;
}

/* 0, with the answer; or the reason, a number of errno.h, why there is no such thread. */
static int call_on_own_stack(gsub_call *call)
{
    pthread_attr_t attributes;
    pthread_t thread;
    int reason = pthread_attr_init(&attributes);
    if (reason != 0)
        return reason;
    reason = pthread_attr_setstacksize(&attributes, OWN_STACK);
    if (reason == 0)
        reason = pthread_create(&thread, &attributes, call_gsub, call);
    pthread_attr_destroy(&attributes);
    return reason != 0 ? reason : pthread_join(thread, NULL);
}

#endif
