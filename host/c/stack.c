/*
 * The deepest trials that are known, on a stack of 512 KiB: thirty-two captures and repeats to the 201st level, greedy ones and lazy
 * ones, and those with a lazy one before the captures too. It dies where the stack is too small, and exits with 1 where the answer is
 * another.
 *
 *     cc -std=c99 -D_POSIX_C_SOURCE=200112L -Wall -Wextra -Werror -Iinclude host/c/stack.c target/staticlib/libluck.a -lpthread -o stack
 */
#include "luck.h"

#include <pthread.h>
#include <stdio.h>
#include <string.h>

enum { CAPTURES = 32, REPEATS = 136, STACK = 512 * 1024 };

struct deep {
    const char *name;
    /* What stands before the captures, and what the innermost one is of. */
    const char *before, *inside;
    /* How many of the captures are closed before the repeats. */
    int closed;
    uint8_t repeat;
    /* What is repeated, in turn, and the subject's bytes. */
    const char *items, *letters;
    luck_trial answer;
};

static void *trial(void *given)
{
    static uint8_t pattern[2 + CAPTURES + 1 + CAPTURES + 2 * REPEATS + 1];
    static uint8_t subject[1 + REPEATS];
    static uint8_t output[1024];
    struct deep *deep = given;
    size_t at = strlen(deep->before);
    memcpy(pattern, deep->before, at);
    memset(pattern + at, '(', CAPTURES);
    at += CAPTURES;
    pattern[at++] = (uint8_t)deep->inside[0];
    memset(pattern + at, ')', (size_t)deep->closed);
    at += (size_t)deep->closed;
    subject[0] = (uint8_t)deep->inside[0];
    for (int i = 0; i < REPEATS; i++) {
        pattern[at++] = (uint8_t)deep->items[i % 2];
        pattern[at++] = deep->repeat;
        subject[1 + i] = (uint8_t)deep->letters[i % 2];
    }
    if (deep->closed < CAPTURES) {
        pattern[at++] = ')';
    }
    deep->answer = luck_gsub_trial(LUCK_LUA_54, pattern, at, (const uint8_t *)"x", 1, subject, sizeof subject, 1000000, output,
                                   sizeof output);
    return NULL;
}

/* 0 where the trial came to the 201st level and back. */
static int run(struct deep *deep)
{
    pthread_attr_t attributes;
    pthread_t thread;
    if (pthread_attr_init(&attributes) != 0 || pthread_attr_setstacksize(&attributes, STACK) != 0
        || pthread_create(&thread, &attributes, trial, deep) != 0 || pthread_join(thread, NULL) != 0) {
        fputs("no thread with a stack of its own\n", stderr);
        return 1;
    }
    pthread_attr_destroy(&attributes);
    printf("%s repeats, on 512 KiB of stack: number %u, %u steps\n", deep->name, (unsigned)deep->answer.number,
           (unsigned)deep->answer.steps);
    return deep->answer.number == LUCK_TOO_DEEP ? 0 : 1;
}

int main(void)
{
    struct deep greedy = {"greedy", "", "c", CAPTURES - 1, '*', "ab", "ab", {0}};
    struct deep lazy = {"lazy", "", "c", CAPTURES - 1, '-', "aa", "aa", {0}};
    struct deep behind_lazy = {"lazy (one before the captures)", ".-", ".", CAPTURES, '-', "..", "aa", {0}};
    int failed = run(&greedy);
    failed |= run(&lazy);
    return run(&behind_lazy) | failed;
}
