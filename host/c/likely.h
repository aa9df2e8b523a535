/*
 * The name that a mistyped word was likely meant to be, for the command `luck` (luck.c).
 */
#ifndef LUCK_LIKELY_H
#define LUCK_LIKELY_H

#include <stdbool.h>
#include <stddef.h>
#include <stdint.h>
#include <string.h>

enum { LONGEST_NAME = 16, FEWEST_LETTERS = 3 };

static char lower(char letter)
{
    return letter >= 'A' && letter <= 'Z' ? (char)(letter - 'A' + 'a') : letter;
}

/* Whether a word begins with a name's first `len` letters, in any case. */
static bool begins(const char *word, const char *name, size_t len)
{
    for (size_t i = 0; i < len; i++)
        if (word[i] == '\0' || lower(word[i]) != lower(name[i]))
            return false;
    return true;
}

static bool same_word(const char *word, const char *name)
{
    return strlen(word) == strlen(name) && begins(word, name, strlen(name));
}

static size_t least(size_t one, size_t other)
{
    return one < other ? one : other;
}

/* How many letters have to be put in, left out, changed, or exchanged with the next, in any case. */
static size_t distance(const char *word, const char *name)
{
    size_t far[LONGEST_NAME + 1][LONGEST_NAME + 1];
    size_t rows = strlen(word);
    size_t columns = strlen(name);
    if (rows > LONGEST_NAME || columns > LONGEST_NAME)
        return SIZE_MAX;
    for (size_t i = 0; i <= rows; i++)
        for (size_t j = 0; j <= columns; j++) {
            if (i == 0 || j == 0) {
                far[i][j] = i + j;
                continue;
            }
            size_t changed = lower(word[i - 1]) == lower(name[j - 1]) ? 0 : 1;
            far[i][j] = least(least(far[i - 1][j], far[i][j - 1]) + 1, far[i - 1][j - 1] + changed);
            if (i > 1 && j > 1 && lower(word[i - 1]) == lower(name[j - 2]) && lower(word[i - 2]) == lower(name[j - 1]))
                far[i][j] = least(far[i][j], far[i - 2][j - 2] + 1);
        }
    return far[rows][columns];
}

/* Whether a word has a name in it, in any case, as `string.format` has `format`. */
static bool holds(const char *word, const char *name)
{
    for (; *word != '\0'; word++)
        if (begins(word, name, strlen(name)))
            return true;
    return false;
}

/* The longest name that the word holds, or the last one that the word begins with three letters or more; or null. */
static const char *part_of(const char *word, const char *const *names, size_t count)
{
    const char *held = NULL;
    const char *begun = NULL;
    for (size_t i = 0; i < count; i++) {
        if (holds(word, names[i]) && (held == NULL || strlen(held) < strlen(names[i])))
            held = names[i];
        if (strlen(word) >= FEWEST_LETTERS && begins(names[i], word, strlen(word)))
            begun = names[i];
    }
    return held != NULL ? held : begun;
}

/* The letters that may be wrong in a name. */
static size_t slips_of(const char *name)
{
    size_t len = strlen(name);
    return len < FEWEST_LETTERS ? 0 : len < 5 ? 1 : 2;
}

/* The only nearest name, with few letters wrong; else one that the word has a part in common with; or null. */
static const char *likely(const char *word, const char *const *names, size_t count)
{
    const char *found = NULL;
    size_t nearest = SIZE_MAX;
    for (size_t i = 0; i < count; i++) {
        size_t far = distance(word, names[i]);
        if (far < nearest)
            found = far <= slips_of(names[i]) ? names[i] : NULL;
        else if (far == nearest)
            found = NULL;
        nearest = least(nearest, far);
    }
    return found != NULL ? found : part_of(word, names, count);
}

#endif
