/* The grader's C boundary: crates/abi/out/libabi.a, which `rt lib` in crates/abi writes. Linux on x86-64-v2; link it alone. C99 or later, or C++.
 *
 * Columns. `IN(T, p)` is lent for reading, `OUT(T, p)` for writing: a pointer, then a length in elements. The pointer is
 * aligned and not null, even where the length is 0; a column lent for writing overlaps no other argument. The same goes for
 * `T p[N]`, which is a pointer to N elements. The grader keeps no pointer and allocates nothing: all memory is the caller's,
 * before and after.
 *
 * Answers. Every call returns; none has a precondition beyond the above. `cause` is 0 where the call is accepted, else the
 * number of the first cause that holds (see below); the other fields are then 0 and false, and a run is what it was
 * (a refused start or restore returns the run of zeros, which later calls refuse by 4).
 *
 * Threads. A call reads and writes its arguments alone, so calls may run at once on different columns and runs. */
#ifndef GRADER_H
#define GRADER_H
#include <stdbool.h>
#include <stddef.h>
#include <stdint.h>

#ifdef __cplusplus
extern "C" {
#endif

/* Lengths of lent columns: alpha, beta, x and y; tiles and curb quads; offsets; white marks. The index list has none: 1,736
 * entries were the most of 200,000 seeds, and cause 3 answers the length needed. */
enum { GRADER_POINTS = 2500, GRADER_TILES = 20000, GRADER_OFFSETS = 4490, GRADER_MARKS = 2500 };

/* Words of a run's sets: the credited tiles, and four times as many for the wheels. Numbers of its car, of its last poses, of the four
 * motions and of the four forces, each struct's in its own order. */
enum { GRADER_CREDITED = 40, GRADER_WHEELS = 160, GRADER_CAR = 21, GRADER_POSES = 16, GRADER_MOTIONS = 20, GRADER_FORCES = 12 };

/* Bytes that a save's output must have: the length of the longest saved form. */
enum { GRADER_SAVE = 645 };

/* Why a call is refused. */
enum {
    GRADER_SETTINGS = 1,     /* lap share NaN or outside 0 to 1; tick limit outside 1 to 1,000,000 */
    GRADER_SHORT = 2,        /* a lent column or a save's output is too short, or start's n is outside 1 to 2,500 */
    GRADER_SHORT_LIST = 3,   /* the index list is too short; `entries` is the length needed */
    GRADER_NO_RUN = 4,       /* what is passed is no run, or the run has ended (sheet and save take an ended one) */
    GRADER_TURN = 5,         /* drive and settle alternate, drive first; a save while a settle is due */
    GRADER_TICK_LIMIT = 6,   /* the tick limit is reached */
    GRADER_ACTION = 7,       /* an action above 4 */
    GRADER_NUMBER = 8,       /* a float argument that is not finite, or out of its range */
    GRADER_POINT_COUNT = 9,  /* no given points, or more than 2,500 */
    GRADER_INDEX = 10,       /* the lent index is damaged where a wheel looks it up */
    GRADER_SAVED = 11,       /* bytes that are no saved form, or that say what no run has */
    GRADER_OTHER_COURSE = 12 /* the course has another tile count than the saved run's */
};

typedef struct { double x, y, cos, sin; } grader_pose;
typedef struct { double joint_angle, sin, cos, vx, vy; } grader_motion;
typedef struct { double motor, fx, fy; } grader_force;
typedef struct { double gas, brake, steer, omega, phase; } grader_wheel;
typedef struct { double tile, step, off_playfield; } grader_weights;
typedef struct { grader_pose wheels[4]; } grader_poses;     /* front left, front right, rear left, rear right */
typedef struct { grader_motion wheels[4]; } grader_motions;

/* A run, in records by who writes them: start and restore all of it, settle progress, sets and last poses, drive the car and the flag
 * `driven`, which says that a drive awaits its settle. Keep the run where you like and change nothing in it. */
typedef struct { uint32_t n, tick_limit; double lap_share; bool fallback; } grader_setup;
typedef struct { uint32_t visited_count, tick; bool lap, ended, driven; } grader_progress;
typedef struct { grader_wheel ctl[4]; double fuel_spent; } grader_car;
typedef struct {
    grader_setup setup;
    grader_progress progress;
    grader_car car;
    uint64_t credited[GRADER_CREDITED]; /* tile t is bit t % 64 of word t / 64 */
    uint64_t wheels[GRADER_WHEELS];     /* the tiles that a wheel touched at the last contact, wheel by wheel */
    double poses[GRADER_POSES];         /* where the wheels were at the last contact, wheel by wheel x, y, cos, sin */
    uint64_t seed;                      /* as start was told it */
} grader_run;

typedef struct { uint32_t cause, n, entries; bool fallback; double beta, x, y; } grader_laid; /* beta, x, y: the first point */
typedef struct { uint32_t cause, count; } grader_curbs_found;
typedef struct { uint32_t cause, count; bool lap; grader_run run; } grader_started;
typedef struct { uint32_t cause; grader_progress progress; } grader_driven;
typedef struct { uint32_t cause, new_tiles, n; bool off, lap, ended; grader_progress progress; } grader_settled;
typedef struct { uint32_t cause, tick, credited, n, share; bool lap, ended, fallback; } grader_figures;
typedef struct { grader_laid laid; uint32_t start_cause, start_count; bool start_lap; grader_figures sheet; } grader_replayed;
typedef struct { uint32_t cause, length; } grader_saved;
typedef struct { uint32_t cause; grader_run run; } grader_restored;
typedef struct { uint32_t cause, n; uint64_t seed; } grader_saved_for;
typedef struct { uint32_t cause; double value; } grader_angle;
typedef struct { uint64_t value, state; } grader_drawn;

#define IN(T, p) const T *p, size_t p##_len
#define OUT(T, p) T *p, size_t p##_len
#define COURSE_OUT OUT(double, alpha), OUT(double, beta), OUT(double, x), OUT(double, y), OUT(double, tiles), OUT(uint32_t, offsets), OUT(uint32_t, list)
#define COURSE_IN IN(double, tiles), IN(uint32_t, offsets), IN(uint32_t, list)

/* The course of a seed, or of given points; causes 2, 3, and 9, 2, 8, 3. */
grader_laid grader_lay(uint64_t seed, COURSE_OUT);
grader_laid grader_points(IN(double, given_beta), IN(double, given_x), IN(double, given_y), uint32_t count, COURSE_OUT);
/* Curb quads and white marks of given points; causes 9, 2, 8. */
grader_curbs_found grader_curbs(IN(double, beta), IN(double, x), IN(double, y), uint32_t count, OUT(double, quads), OUT(uint8_t, white));

/* A run: start (causes 1, 2, 8, 10), then drive (4, 5, 6, 7, 8) and settle (4, 5, 6, 2, 8, 10) in turn, with the host's
 * physics between them; sheet (4) at any time. A host calls these three by `grader_drive`, `grader_settle` and `grader_sheet` below.
 * Start is told the course's seed, 0 for a course from points; it is kept for a save, and nothing is tested or graded by it. */
grader_started grader_start(COURSE_IN, uint32_t n, bool fallback, uint64_t seed, double lap_share, uint32_t tick_limit, grader_poses poses);
double grader_reward(grader_weights weights, uint32_t new_tiles, uint32_t n, bool off);

/* The three on a run's parts: setup and progress by value, the others lent. An accepted drive writes all numbers of car and forces, a
 * settle both sets and the last poses; a refused one writes nothing. The answer has the progress after the call, as it was where it is
 * refused. */
grader_driven grader_drive_parts(grader_setup setup, grader_progress progress, double car[GRADER_CAR], const uint64_t wheels[GRADER_WHEELS], uint32_t action, const double motions[GRADER_MOTIONS], double forces[GRADER_FORCES]);
grader_settled grader_settle_parts(grader_setup setup, grader_progress progress, uint64_t credited[GRADER_CREDITED], uint64_t wheels[GRADER_WHEELS], double last[GRADER_POSES], COURSE_IN, double hull_x, double hull_y, grader_poses poses);
grader_figures grader_sheet_parts(grader_setup setup, grader_progress progress);

/* The three on a run where it stands. Drive answers its cause, 0 where the forces are written. Car, motions and forces are lent as the
 * numbers that they are: all their members are doubles. */
static inline uint32_t grader_drive(grader_run *run, uint32_t action, const grader_motions *motions, grader_force forces[4]) {
    grader_driven d = grader_drive_parts(run->setup, run->progress, (double *)&run->car, run->wheels, action, (const double *)motions, (double *)forces);
    run->progress = d.progress;
    return d.cause;
}
static inline grader_settled grader_settle(grader_run *run, COURSE_IN, double hull_x, double hull_y, grader_poses poses) {
    grader_settled s = grader_settle_parts(run->setup, run->progress, run->credited, run->wheels, run->poses, tiles, tiles_len, offsets, offsets_len, list, list_len, hull_x, hull_y, poses);
    run->progress = s.progress;
    return s;
}
static inline grader_figures grader_sheet(const grader_run *run) {
    return grader_sheet_parts(run->setup, run->progress);
}

/* Keeping a run over a restart of the host. Save (causes 4, 5, 2, in this order) writes the run's saved form to the first `length` bytes
 * of `out`, which has room for 645 whatever the length, and nothing past them; a refused save writes nothing. Lay the course again by the
 * seed and the tile count that `grader_saved_course` (11) tells of the bytes, then restore (11, 12, 2, 10): the run as it was at the save,
 * its wheel sets made anew from the last poses on the lent course. Both take the bytes in their whole length and no more. */
grader_saved grader_save(grader_run run, OUT(uint8_t, out));
grader_saved_for grader_saved_course(IN(uint8_t, bytes));
grader_restored grader_restore(IN(uint8_t, bytes), COURSE_IN, uint32_t n);

/* A whole run from a list: four words and twenty numbers to a call, four words and twelve numbers to an answer. A call: kind (0 is
 * a drive, any other a settle), action, lent lengths of tiles and offsets; a drive's motions, or a settle's hull x, y and poses. An
 * answer: 0 and the forces; 1, new tiles, n and the flags off, lap, ended as 1, 2, 4; or 2 and the cause. */
grader_replayed grader_replay(uint64_t seed, COURSE_OUT, double lap_share, uint32_t tick_limit, grader_poses poses, uint32_t many, IN(uint32_t, calls), IN(double, given), OUT(uint32_t, words), OUT(double, numbers));

/* The numbers that the course is made of; sine, cosine and atan2 refuse by 8. */
grader_angle grader_sine(double a);
grader_angle grader_cosine(double a);
grader_angle grader_atan2(double y, double x);
double grader_sqrt(double x);
uint32_t grader_cell(double v);
grader_drawn grader_draw(uint64_t state);

#undef IN
#undef OUT
#undef COURSE_OUT
#undef COURSE_IN

#ifdef __cplusplus
}
#endif
#endif
