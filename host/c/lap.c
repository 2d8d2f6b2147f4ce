/* Lays a seed of 64 bits and drives on it a car that stands where it is put, and looks at what each call leaves in the run, field by field:
 * an accepted one what it says, a refused one all as it was. A run that is saved and restored on the way goes on like the one that was not. */
#include "../grader.h"
#include <math.h>
#include <stdio.h>
#include <stdlib.h>
#include <string.h>

#define CHECK(so) do { if (!(so)) { printf("lap.c, line %d: not so: %s\n", __LINE__, #so); exit(1); } } while (0)

static const uint64_t SEED = 0x0123456789abcdef; /* no two bytes alike */
enum { LIST = 4096 };
static double alpha[GRADER_POINTS], beta[GRADER_POINTS], x[GRADER_POINTS], y[GRADER_POINTS], tiles[GRADER_TILES];
static uint32_t offsets[GRADER_OFFSETS], list[LIST];
static grader_laid course;

static bool same_setup(grader_setup a, grader_setup b) {
    return a.n == b.n && a.tick_limit == b.tick_limit && a.lap_share == b.lap_share && a.fallback == b.fallback;
}
static bool same_progress(grader_progress a, grader_progress b) {
    return a.visited_count == b.visited_count && a.tick == b.tick && a.lap == b.lap && a.ended == b.ended && a.driven == b.driven;
}
/* Numbers and words have no padding between them. */
static bool same_car(const grader_run *a, const grader_run *b) {
    return !memcmp(&a->car, &b->car, sizeof a->car);
}
static bool same_sets(const grader_run *a, const grader_run *b) {
    return !memcmp(a->credited, b->credited, sizeof a->credited) && !memcmp(a->wheels, b->wheels, sizeof a->wheels);
}
static bool same_poses(const grader_run *a, const grader_run *b) {
    return !memcmp(a->poses, b->poses, sizeof a->poses);
}
static bool same(const grader_run *a, const grader_run *b) {
    return same_setup(a->setup, b->setup) && same_progress(a->progress, b->progress) && same_car(a, b) && same_sets(a, b) && same_poses(a, b)
        && a->seed == b->seed;
}

static uint32_t count(const uint64_t credited[GRADER_CREDITED]) {
    uint32_t many = 0;
    for (int t = 0; t < 64 * GRADER_CREDITED; t++) many += credited[t / 64] >> t % 64 & 1;
    return many;
}

/* Each wheel is on the tile now, and the tile is credited. */
static bool touched(const grader_run *run, uint32_t tile) {
    uint64_t bit = run->credited[tile / 64] >> tile % 64;
    for (int k = 0; k < 4; k++) bit &= run->wheels[GRADER_WHEELS / 4 * k + (int)tile / 64] >> tile % 64;
    return bit & 1;
}

/* Four wheels on point i, and four motions of a car that stands. */
static grader_poses on(uint32_t i) {
    grader_poses p;
    for (int k = 0; k < 4; k++) p.wheels[k] = (grader_pose){x[i], y[i], cos(beta[i]), sin(beta[i])};
    return p;
}
/* The run's last poses are those. */
static bool stands(const grader_run *run, grader_poses p) {
    return !memcmp(run->poses, &p, sizeof p);
}
static grader_motions still(void) {
    grader_motions m = {0};
    for (int k = 0; k < 4; k++) m.wheels[k].cos = 1;
    return m;
}

static grader_started start(double lap_share, uint32_t tick_limit) {
    return grader_start(tiles, GRADER_TILES, offsets, GRADER_OFFSETS, list, course.entries, course.n, course.fallback, SEED, lap_share, tick_limit, on(0));
}
static grader_settled settle(grader_run *run, size_t tiles_lent, double hull_x, uint32_t i) {
    return grader_settle(run, tiles, tiles_lent, offsets, GRADER_OFFSETS, list, course.entries, hull_x, 0, on(i));
}

/* Both are refused by these causes and change nothing. */
static void refused(const grader_run *before, uint32_t action, double vx, uint32_t drive_cause, size_t tiles_lent, double hull_x, uint32_t settle_cause) {
    grader_run run = *before;
    grader_motions motions = still();
    motions.wheels[3].vx = vx;
    grader_force forces[4];
    for (int k = 0; k < 4; k++) forces[k] = (grader_force){7, 8, 9};
    CHECK(grader_drive(&run, action, &motions, forces) == drive_cause);
    for (int k = 0; k < 4; k++) CHECK(forces[k].motor == 7 && forces[k].fx == 8 && forces[k].fy == 9);
    CHECK(same(&run, before));
    grader_settled s = settle(&run, tiles_lent, hull_x, 1);
    CHECK(s.cause == settle_cause && !s.new_tiles && !s.n && !s.off && !s.lap && !s.ended);
    CHECK(same_progress(s.progress, before->progress));
    CHECK(same(&run, before));
}

/* A start writes the whole run. */
static grader_run started(double lap_share, uint32_t tick_limit) {
    grader_started s = start(lap_share, tick_limit);
    CHECK(s.cause == 0 && s.count > 0);
    CHECK(same_setup(s.run.setup, (grader_setup){course.n, tick_limit, lap_share, course.fallback}));
    CHECK(same_progress(s.run.progress, (grader_progress){s.count, 0, s.lap, false, false}));
    CHECK(same_car(&s.run, &(grader_run){0}));
    CHECK(count(s.run.credited) == s.count && touched(&s.run, 0));
    CHECK(stands(&s.run, on(0)) && s.run.seed == SEED);
    return s.run;
}

/* A drive writes the forces, the car and `driven`. Gas goes to the rear wheels. */
static double driven(grader_run *run) {
    const grader_run before = *run;
    const grader_motions motions = still();
    grader_force forces[4];
    CHECK(grader_drive(run, 3, &motions, forces) == 0);
    grader_progress after = before.progress;
    after.driven = true;
    CHECK(same_progress(run->progress, after) && same_setup(run->setup, before.setup) && same_sets(run, &before));
    CHECK(same_poses(run, &before) && run->seed == SEED);
    for (int k = 0; k < 4; k++) {
        const grader_wheel *was = &before.car.ctl[k], *is = &run->car.ctl[k];
        CHECK(k < 2 ? is->gas == 0 && is->omega == 0 && is->phase == 0 : is->gas > was->gas && is->omega > was->omega && is->phase > was->phase);
        CHECK(is->brake == 0 && is->steer == 0 && forces[k].motor == 0 && forces[k].fx == 0 && (forces[k].fy > 0) == (k > 1));
    }
    CHECK(run->car.fuel_spent > before.car.fuel_spent);
    return forces[2].fy;
}

/* A settle writes progress, sets and last poses. */
static grader_settled settled(grader_run *run, double hull_x, uint32_t i) {
    const grader_run before = *run;
    grader_settled s = settle(run, GRADER_TILES, hull_x, i);
    CHECK(s.cause == 0 && s.n == course.n && s.off == (hull_x > 333));
    CHECK(same_progress(run->progress, (grader_progress){before.progress.visited_count + s.new_tiles, before.progress.tick + 1, s.lap, s.ended, false}));
    CHECK(same_progress(s.progress, run->progress) && same_setup(run->setup, before.setup) && same_car(run, &before));
    CHECK(count(run->credited) == run->progress.visited_count && touched(run, i));
    CHECK(stands(run, on(i)) && run->seed == SEED);
    return s;
}

static grader_figures sheet(const grader_run *run) {
    grader_figures f = grader_sheet(run);
    const grader_progress *p = &run->progress;
    CHECK(f.cause == 0 && f.tick == p->tick && f.credited == p->visited_count && f.n == course.n && f.share == 1000 * f.credited / f.n);
    CHECK(f.lap == p->lap && f.ended == p->ended && f.fallback == course.fallback);
    return f;
}

/* A save that is refused by this cause writes nothing. */
static void not_saved(const grader_run *run, size_t room, uint32_t cause) {
    uint8_t out[GRADER_SAVE];
    memset(out, 0xa5, sizeof out);
    grader_saved s = grader_save(*run, out, room);
    CHECK(s.cause == cause && !s.length);
    for (size_t i = 0; i < sizeof out; i++) CHECK(out[i] == 0xa5);
}

/* The run's bytes, at most 645; past their length the output is as it was. They tell their course. */
static uint32_t saved(const grader_run *run, uint8_t bytes[GRADER_SAVE]) {
    memset(bytes, 0xa5, GRADER_SAVE);
    grader_saved s = grader_save(*run, bytes, GRADER_SAVE);
    CHECK(s.cause == 0 && s.length <= GRADER_SAVE);
    for (size_t i = s.length; i < GRADER_SAVE; i++) CHECK(bytes[i] == 0xa5);
    grader_saved_for f = grader_saved_course(bytes, s.length);
    CHECK(f.cause == 0 && f.seed == SEED && f.n == course.n);
    return s.length;
}

static grader_restored restored(const uint8_t *bytes, size_t length, size_t tiles_lent, size_t list_lent, uint32_t n) {
    return grader_restore(bytes, length, tiles, tiles_lent, offsets, GRADER_OFFSETS, list, list_lent, n);
}

/* The run after a save and a restore, which is the run before them, wheel sets and all. */
static grader_run taken_up(const grader_run *run) {
    uint8_t bytes[GRADER_SAVE];
    uint32_t length = saved(run, bytes);
    grader_restored r = restored(bytes, length, GRADER_TILES, course.entries, course.n);
    CHECK(r.cause == 0 && same(&r.run, run));
    return r.run;
}

static void not_restored(const uint8_t *bytes, size_t length, size_t tiles_lent, size_t list_lent, uint32_t n, uint32_t cause) {
    grader_restored r = restored(bytes, length, tiles_lent, list_lent, n);
    CHECK(r.cause == cause && same(&r.run, &(grader_run){0}));
    grader_saved_for f = grader_saved_course(bytes, length);
    CHECK(cause == GRADER_SAVED ? f.cause == cause && !f.seed && !f.n : f.cause == 0 && f.seed == SEED && f.n == course.n);
}

/* Each cause of a restore with those that come after it. */
static void restores_refused(const grader_run *run) {
    uint8_t bytes[GRADER_SAVE + 1] = {0};
    uint32_t length = saved(run, bytes);
    bytes[length] = 0;
    not_restored(bytes, length + 1, 0, 0, course.n + 1, GRADER_SAVED); /* a byte left over */
    for (size_t i = 0; i < length; i++) not_restored(bytes, i, 0, 0, course.n + 1, GRADER_SAVED);
    bytes[1] ^= 8; /* a field that there is not */
    not_restored(bytes, length, GRADER_TILES, course.entries, course.n, GRADER_SAVED);
    bytes[1] ^= 8;
    not_restored(bytes, length, 0, 0, course.n + 1, GRADER_OTHER_COURSE);
    not_restored(bytes, length, GRADER_TILES - 1, 0, course.n, GRADER_SHORT);
    not_restored(bytes, length, GRADER_TILES, 0, course.n, GRADER_INDEX);
    CHECK(restored(bytes, length, GRADER_TILES, course.entries, course.n).cause == 0);
}

/* A run goes on as it is, and another is saved and restored after each tick: the same answers, to the bit. */
static void kept_on_the_way(void) {
    grader_run run = started(0.95, 1000), other = taken_up(&run);
    const grader_motions motions = still();
    for (uint32_t i = 0; i < 40; i++) {
        grader_force forces[4], others[4];
        CHECK(grader_drive(&run, i % 5, &motions, forces) == 0 && grader_drive(&other, i % 5, &motions, others) == 0);
        CHECK(!memcmp(forces, others, sizeof forces) && same(&run, &other));
        not_saved(&run, GRADER_SAVE, GRADER_TURN);
        uint32_t at = 3 * i % course.n;
        grader_settled s = settled(&run, 0, at), t = settled(&other, 0, at);
        CHECK(s.new_tiles == t.new_tiles && s.off == t.off && s.lap == t.lap && s.ended == t.ended && same(&run, &other));
        other = taken_up(&other);
    }
    restores_refused(&run);
    not_saved(&run, GRADER_SAVE - 1, GRADER_SHORT);
    CHECK(sheet(&run).tick == 40 && sheet(&other).credited == sheet(&run).credited);
}

int main(void) {
    course = grader_lay(SEED, alpha, GRADER_POINTS, beta, GRADER_POINTS, x, GRADER_POINTS, y, GRADER_POINTS, tiles, GRADER_TILES, offsets, GRADER_OFFSETS, list, LIST);
    CHECK(course.cause == 0 && course.x == x[0] && course.y == y[0] && course.beta == beta[0]);
    grader_run run = started(0.95, 2);
    const uint32_t first = run.progress.visited_count;
    refused(&run, 5, 0, GRADER_ACTION, GRADER_TILES, 0, GRADER_TURN);
    refused(&run, 0, NAN, GRADER_NUMBER, GRADER_TILES, 0, GRADER_TURN);
    double force = driven(&run);
    refused(&run, 3, 0, GRADER_TURN, GRADER_TILES - 1, 0, GRADER_SHORT);
    refused(&run, 3, 0, GRADER_TURN, GRADER_TILES, INFINITY, GRADER_NUMBER);
    grader_settled s = settled(&run, 0, course.n / 2);
    CHECK(s.new_tiles > 0 && !s.lap && !s.ended);
    grader_figures f = sheet(&run);
    printf("%u tiles, %u at the start, force %.3f, %u new, tick %u, share %u\n", course.n, first, force, s.new_tiles, f.tick, f.share);
    driven(&run);
    s = settled(&run, 0, 0);
    CHECK(s.new_tiles == 0 && !s.ended && sheet(&run).tick == 2);
    run = taken_up(&run);
    refused(&run, 0, 0, GRADER_TICK_LIMIT, GRADER_TILES, 0, GRADER_TURN);

    run = started(0.95, 1000);
    driven(&run);
    s = settled(&run, 334, 0);
    CHECK(!s.lap && s.ended && sheet(&run).ended);
    run = taken_up(&run);
    refused(&run, 0, 0, GRADER_NO_RUN, GRADER_TILES, 0, GRADER_NO_RUN);

    run = started(0, 1000);
    CHECK(run.progress.lap && sheet(&run).lap && !sheet(&run).ended);
    run = taken_up(&run);
    driven(&run);
    s = settled(&run, 0, 0);
    CHECK(s.lap && s.ended);
    taken_up(&run);

    grader_started none = start(2, 1000);
    CHECK(none.cause == GRADER_SETTINGS && !none.count && !none.lap && same(&none.run, &(grader_run){0}));
    CHECK(grader_sheet(&none.run).cause == GRADER_NO_RUN);
    not_saved(&none.run, 0, GRADER_NO_RUN);
    kept_on_the_way();
    return 0;
}
