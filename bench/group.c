/* The yardstick of grouping: the same rows, grouped on one thread by their first words in plain C, with the heads, trees and words of a grouper.
 *
 * group FRAMES KEYS ROWS FOLDS groups so many rows, each with one of so many keys, and 2 folds (a sum and a count) or all 5.
 *
 * A frame has 512 words, of which the first frame holds the heads. A group has the word of its key and three words for each fold, and behind them the
 * word of its two children: for each half 0, or the number of a group and 1, the left one in the low half.
 */
#include <stdint.h>
#include <stdio.h>
#include <stdlib.h>
#include <string.h>
#include <time.h>

enum fold { SUM, AVG, MIN, MAX, COUNT };

static const enum fold five[] = {SUM, AVG, MIN, MAX, COUNT}, two[] = {SUM, COUNT};

static int64_t **frames;
static const enum fold *folds;
static uint32_t fold_count, width, rows_per_frame, group_count;

static uint64_t now(void) {
    struct timespec at;
    clock_gettime(CLOCK_MONOTONIC, &at);
    return (uint64_t)at.tv_sec * 1000000000 + at.tv_nsec;
}

static uint64_t last = 1;

static uint32_t number_below(uint32_t limit) {
    last = last * 6364136223846793005u + 1442695040888963407u;
    return (last >> 32) * limit >> 32;
}

static int64_t key_of(uint32_t i) {
    uint64_t spread = i * 11995408973635179863u;
    return (int64_t)(spread ^ spread >> 32);
}

static int64_t *group_at(uint32_t number) {
    return frames[1 + number / rows_per_frame] + number % rows_per_frame * (width + 1);
}

static void fold_word(enum fold fold, int64_t *state, int64_t word) {
    if (fold == COUNT) {
        state[0] += 1;
    } else if (word != INT64_MIN) {
        if (fold == MIN) {
            if (state[0] == INT64_MIN || word < state[0]) state[0] = word;
        } else if (fold == MAX) {
            if (word > state[0]) state[0] = word;
        } else {
            __int128 sum = ((__int128)state[1] << 64 | (uint64_t)state[0]) + word;
            state[0] = (int64_t)sum;
            state[1] = (int64_t)(sum >> 64);
            state[2] += 1;
        }
    }
}

static void fold_row(int64_t *group, const int64_t *row) {
    for (uint32_t i = 0; i < fold_count; i++) fold_word(folds[i], group + 1 + 3 * i, row[1 + i]);
}

static int64_t *new_group(int64_t key) {
    int64_t *group = group_at(group_count++);
    memset(group, 0, (width + 1) * sizeof *group);
    group[0] = key;
    for (uint32_t i = 0; i < fold_count; i++)
        if (folds[i] == MIN || folds[i] == MAX) group[1 + 3 * i] = INT64_MIN;
    return group;
}

__attribute__((noinline)) static void take(const int64_t *row) {
    uint64_t hash = (uint64_t)row[0] * 15485863646312837395u, bits = hash * 512;
    int64_t *link = &frames[0][(hash >> 32) * 512 >> 32];
    uint32_t side = 0, number = (uint32_t)*link;
    while (number) {
        int64_t *group = group_at(number - 1);
        if (group[0] == row[0]) {
            fold_row(group, row);
            return;
        }
        link = group + width;
        side = bits >> 63;
        bits *= 2;
        number = (uint32_t)((uint64_t)*link >> 32 * side);
    }
    fold_row(new_group(row[0]), row);
    *link |= (int64_t)((uint64_t)group_count << 32 * side);
}

/* Where groups are put: a call, as it is in the grouper. */
static uint64_t groups_put, words_put;

__attribute__((noinline)) static void put(const int64_t *row, uint32_t words) {
    groups_put += 1;
    for (uint32_t i = 0; i < words; i++) words_put += (uint64_t)row[i];
}

static int64_t *put_wide(int64_t *at, __int128 word, int64_t values) {
    at[0] = values ? (int64_t)word : 0;
    at[1] = values ? (int64_t)(word >> 64) : INT64_MIN;
    return at + 2;
}

/* The average with two decimal places more than the values have, rounded half away from zero. */
static __int128 average(__int128 sum, int64_t values) {
    unsigned __int128 size = (unsigned __int128)(sum < 0 ? -sum : sum) * 200 + (uint64_t)values;
    __int128 rounded = (__int128)(size / (2 * (uint64_t)values));
    return sum < 0 ? -rounded : rounded;
}

static void put_group(const int64_t *group) {
    int64_t row[12], *at = row;
    *at++ = group[0];
    for (uint32_t i = 0; i < fold_count; i++) {
        const int64_t *state = group + 1 + 3 * i;
        __int128 sum = (__int128)state[1] << 64 | (uint64_t)state[0];
        if (folds[i] == SUM) at = put_wide(at, sum, state[2]);
        else if (folds[i] == AVG) at = put_wide(at, state[2] ? average(sum, state[2]) : 0, state[2]);
        else *at++ = state[0];
    }
    put(row, at - row);
}

int main(int count, char **words) {
    if (count != 5) return 64;
    uint32_t frame_count = atoi(words[1]), keys = atoi(words[2]), rows = atoi(words[3]);
    fold_count = atoi(words[4]) == 5 ? 5 : 2;
    folds = fold_count == 5 ? five : two;
    width = 1 + 3 * fold_count;
    rows_per_frame = 512 / (width + 1);
    frames = malloc(frame_count * sizeof *frames);
    if (!frames) return 71;
    for (uint32_t i = 0; i < frame_count; i++) {
        frames[i] = malloc(512 * sizeof **frames);
        if (!frames[i]) return 71;
        memset(frames[i], 0, 512 * sizeof **frames);
    }
    uint64_t start = now();
    for (uint32_t i = 0; i < rows; i++) {
        int64_t row[6] = {key_of(number_below(keys)), i, i, i, i, i};
        take(row);
    }
    uint64_t middle = now();
    for (uint32_t i = 0; i < group_count; i++) put_group(group_at(i));
    uint64_t end = now();
    printf("%lu ns to take, %lu ns to end; %lu groups, sum %lu\n", middle - start, end - middle, groups_put, words_put);
    return 0;
}
