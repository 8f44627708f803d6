// Times the proved check and the one in C over the same card image, once both have told the same of it.
#include "check.h"

#include <inttypes.h>
#include <stdbool.h>
#include <stdio.h>
#include <string.h>
#include <time.h>

enum { ROW = 64, MAX_ROWS = 1024, MAX_IMAGE = MAX_ROWS * ROW, SLOTS = 16, GUARD = 64, ROUNDS = 15 };
static const uint8_t mark_filler = 0xA5;
static const uint16_t number_filler = 0xC35A;
static const double batch_us = 50e3;

// The image as it was read and as the checks get it, and marks and numbers for it, of both as many more as GUARD says.
struct memory {
    size_t image_len, handles;
    uint8_t original[MAX_IMAGE + 1], image[MAX_IMAGE + 1];
    uint8_t marks[MAX_ROWS * SLOTS + GUARD];
    uint16_t numbers[MAX_ROWS * SLOTS + GUARD];
};

// The refusal, and what else is told: the four counts, or the sector and the word.
struct answer {
    uint32_t refusal;
    uint64_t told[4];
};

typedef struct answer checker(struct memory *m, size_t marks_len, size_t numbers_len);

static struct answer ours(struct memory *m, size_t marks_len, size_t numbers_len) {
    struct answer a = {0};
    a.refusal = goarfleki_check(m->image, m->image_len, m->marks, marks_len, m->numbers, numbers_len, a.told, 4);
    return a;
}

static struct answer in_c(struct memory *m, size_t marks_len, size_t numbers_len) {
    struct card card = {m->image, (uint32_t)(m->image_len / ROW)};
    struct check_result r = c_check(&card, m->marks, marks_len, m->numbers, numbers_len);
    if (r.refusal != 0)
        return (struct answer){r.refusal, {r.sector, r.word}};
    return (struct answer){0, {r.transactions, r.free_pages, r.objects, r.reachable}};
}

static bool same(const struct answer *a, const struct answer *b) {
    return a->refusal == b->refusal && memcmp(a->told, b->told, sizeof a->told) == 0;
}

static void print(const char *who, const struct answer *a) {
    const uint64_t *told = a->told;
    if (a->refusal == 0)
        printf("%s: heap: %" PRIu64 " transactions, %" PRIu64 " free pages, %" PRIu64 " objects, %" PRIu64 " reachable\n",
               who, told[0], told[1], told[2], told[3]);
    else
        printf("%s: no heap: refusal %u, sector %" PRIu64 ", word %" PRIu64 "\n", who, a->refusal, told[0], told[1]);
}

static void fill(struct memory *m) {
    memset(m->marks, mark_filler, m->handles + GUARD);
    for (size_t i = 0; i < m->handles + GUARD; i++)
        m->numbers[i] = number_filler;
}

// Whether the memory is zero up to there and as it was filled from there on, and the image as it was.
static bool left(const struct memory *m, size_t zeros, size_t filler) {
    for (size_t i = 0; i < zeros; i++)
        if (m->marks[i] != 0 || m->numbers[i] != 0)
            return false;
    for (size_t i = filler; i < m->handles + GUARD; i++)
        if (m->marks[i] != mark_filler || m->numbers[i] != number_filler)
            return false;
    return memcmp(m->image, m->original, m->image_len) == 0;
}

// What a check tells of the image, given dirty memory: just enough, more than enough, and too little of either.
static bool try(const char *who, checker *check, struct memory *m, struct answer *told) {
    size_t enough = m->handles;
    fill(m);
    *told = check(m, enough, enough);
    bool fine = left(m, enough, enough);
    fill(m);
    struct answer again = check(m, enough + GUARD, enough + GUARD);
    fine = fine && left(m, enough, enough + GUARD) && same(told, &again);
    for (int i = 0; i < 2 && enough > 0; i++) {
        struct answer wanted = {SHORT_MEMORY, {0}};
        fill(m);
        again = check(m, enough - (i == 0), enough - (i == 1));
        fine = fine && left(m, 0, 0) && same(&wanted, &again);
    }
    print(who, told);
    if (!fine)
        fprintf(stderr, "%s: wrong with its memory, or not the same answer every time\n", who);
    return fine;
}

static double now(void) {
    struct timespec t;
    clock_gettime(CLOCK_MONOTONIC, &t);
    return t.tv_sec * 1e6 + t.tv_nsec * 1e-3;
}

// The time of a batch of calls in microseconds; `wrong` counts those that tell something else.
static double batch(checker *check, struct memory *m, const struct answer *told, uint32_t calls, uint32_t *wrong) {
    double start = now();
    for (uint32_t i = 0; i < calls; i++) {
        struct answer a = check(m, m->handles, m->handles);
        *wrong += !same(told, &a);
    }
    return now() - start;
}

// Both in turn, so that both meet the same machine; the best batch of each counts, and the first only warms the caches.
static bool compare(struct memory *m, const struct answer *told) {
    double our_best = 1e18, c_best = 1e18;
    uint32_t calls = 1, wrong = 0;
    while (batch(in_c, m, told, calls, &wrong) < batch_us)
        calls *= 2;
    for (int round = 0; round <= ROUNDS; round++) {
        double our_time = batch(ours, m, told, calls, &wrong);
        double c_time = batch(in_c, m, told, calls, &wrong);
        if (round > 0 && our_time < our_best)
            our_best = our_time;
        if (round > 0 && c_time < c_best)
            c_best = c_time;
    }
    if (wrong != 0 || memcmp(m->image, m->original, m->image_len) != 0) {
        fprintf(stderr, "an answer or the image changed while timing\n");
        return false;
    }
    printf("best of %d batches of %u calls: ours %.2f us, C %.2f us, ratio %.2f\n", ROUNDS, calls, our_best / calls,
           c_best / calls, our_best / c_best);
    return true;
}

static bool read_image(const char *name, struct memory *m) {
    FILE *file = fopen(name, "rb");
    if (file == NULL) {
        perror(name);
        return false;
    }
    m->image_len = fread(m->original, 1, MAX_IMAGE + 1, file);
    bool whole = m->image_len <= MAX_IMAGE && m->image_len % ROW == 0;
    if (ferror(file))
        perror(name);
    else if (!whole)
        fprintf(stderr, "%s: not up to 1,024 whole rows of 64 bytes\n", name);
    whole = whole && !ferror(file);
    fclose(file);
    memcpy(m->image, m->original, m->image_len);
    m->handles = m->image_len / ROW * SLOTS;
    return whole;
}

int main(int count, char **names) {
    static struct memory m;
    if (count != 2) {
        fprintf(stderr, "usage: bench-check IMAGE\n");
        return 1;
    }
    if (!read_image(names[1], &m))
        return 1;
    c_check_prepare();
    struct answer our_told, c_told;
    bool fine = try("ours", ours, &m, &our_told);
    fine &= try("C", in_c, &m, &c_told);
    if (!same(&our_told, &c_told)) {
        fprintf(stderr, "the answers differ\n");
        fine = false;
    }
    return fine && compare(&m, &our_told) ? 0 : 1;
}
