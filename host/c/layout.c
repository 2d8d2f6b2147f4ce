/* The layout of what crosses the boundary, the same numbers as host/grader/src/ffi.rs has in its tests. It compiles or it does not. */
#include "../grader.h"

#define SIZE(T, n) _Static_assert(sizeof(T) == (n), #T)
#define AT(T, f, n) _Static_assert(offsetof(T, f) == (n), #T "." #f)
#define NUMBERS(T, n) _Static_assert(sizeof(T) == (n) * sizeof(double), #T)

SIZE(bool, 1);
SIZE(grader_pose, 32);
SIZE(grader_motion, 40);
SIZE(grader_force, 24);
SIZE(grader_wheel, 40);
SIZE(grader_weights, 24);
SIZE(grader_poses, 128);
SIZE(grader_motions, 160);
SIZE(grader_setup, 24);
SIZE(grader_progress, 12);
SIZE(grader_car, 168);
SIZE(grader_run, 1944);
SIZE(grader_laid, 40);
SIZE(grader_curbs_found, 8);
SIZE(grader_started, 1960);
SIZE(grader_driven, 16);
SIZE(grader_settled, 28);
SIZE(grader_figures, 24);
SIZE(grader_replayed, 80);
SIZE(grader_saved, 8);
SIZE(grader_restored, 1952);
SIZE(grader_saved_for, 16);
SIZE(grader_angle, 16);
SIZE(grader_drawn, 16);

/* What is lent as numbers has no others beside them. */
NUMBERS(grader_car, GRADER_CAR);
NUMBERS(grader_motions, GRADER_MOTIONS);
NUMBERS(grader_force[4], GRADER_FORCES);
NUMBERS(grader_poses, GRADER_POSES);

AT(grader_setup, n, 0);
AT(grader_setup, tick_limit, 4);
AT(grader_setup, lap_share, 8);
AT(grader_setup, fallback, 16);
AT(grader_progress, visited_count, 0);
AT(grader_progress, tick, 4);
AT(grader_progress, lap, 8);
AT(grader_progress, ended, 9);
AT(grader_progress, driven, 10);
AT(grader_car, ctl, 0);
AT(grader_car, fuel_spent, 160);
AT(grader_run, setup, 0);
AT(grader_run, progress, 24);
AT(grader_run, car, 40);
AT(grader_run, credited, 208);
AT(grader_run, wheels, 528);
AT(grader_run, poses, 1808);
AT(grader_run, seed, 1936);
AT(grader_laid, fallback, 12);
AT(grader_laid, beta, 16);
AT(grader_started, count, 4);
AT(grader_started, lap, 8);
AT(grader_started, run, 16);
AT(grader_driven, cause, 0);
AT(grader_driven, progress, 4);
AT(grader_settled, new_tiles, 4);
AT(grader_settled, n, 8);
AT(grader_settled, off, 12);
AT(grader_settled, lap, 13);
AT(grader_settled, ended, 14);
AT(grader_settled, progress, 16);
AT(grader_figures, share, 16);
AT(grader_figures, lap, 20);
AT(grader_replayed, start_cause, 40);
AT(grader_replayed, start_lap, 48);
AT(grader_replayed, sheet, 52);
AT(grader_saved, cause, 0);
AT(grader_saved, length, 4);
AT(grader_restored, cause, 0);
AT(grader_restored, run, 8);
AT(grader_saved_for, cause, 0);
AT(grader_saved_for, n, 4);
AT(grader_saved_for, seed, 8);
AT(grader_angle, value, 8);
