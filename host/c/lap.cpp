// Lays seed 7, starts a run with the car on its first point, drives one tick, and saves and restores the run: the header and the library
// from C++.
#include "../grader.h"
#include <cstdio>
#include <vector>

int main() {
    std::vector<double> alpha(GRADER_POINTS), beta(GRADER_POINTS), x(GRADER_POINTS), y(GRADER_POINTS), tiles(GRADER_TILES);
    std::vector<uint32_t> offsets(GRADER_OFFSETS), list(4096);
    const grader_laid c = grader_lay(7, alpha.data(), alpha.size(), beta.data(), beta.size(), x.data(), x.size(), y.data(), y.size(), tiles.data(), tiles.size(), offsets.data(), offsets.size(), list.data(), list.size());
    grader_poses car{};
    grader_motions still{};
    for (auto &wheel : car.wheels) wheel = {c.x, c.y, 1, 0};
    for (auto &wheel : still.wheels) wheel.cos = 1;
    grader_started s = grader_start(tiles.data(), tiles.size(), offsets.data(), offsets.size(), list.data(), c.entries, c.n, c.fallback, 7, 0.95, 1000, car);
    grader_force forces[4];
    const uint32_t refused = grader_drive(&s.run, 3, &still, forces);
    const grader_settled t = grader_settle(&s.run, tiles.data(), tiles.size(), offsets.data(), offsets.size(), list.data(), c.entries, c.x, c.y, car);
    const grader_figures f = grader_sheet(&s.run);
    uint8_t bytes[GRADER_SAVE];
    const grader_saved kept = grader_save(s.run, bytes, sizeof bytes);
    const grader_saved_for of = grader_saved_course(bytes, kept.length);
    const grader_restored r = grader_restore(bytes, kept.length, tiles.data(), tiles.size(), offsets.data(), offsets.size(), list.data(), c.entries, c.n);
    if (c.cause || s.cause || refused || t.cause || f.cause || kept.cause || of.cause || r.cause) return 1;
    if (of.seed != 7 || of.n != c.n || grader_sheet(&r.run).credited != f.credited || r.run.car.fuel_spent != s.run.car.fuel_spent) return 1;
    std::printf("%u tiles, %u at the start, force %.3f, %u new, tick %u, share %u\n", c.n, s.count, forces[2].fy, t.new_tiles, f.tick, f.share);
    return f.tick == 1 && f.credited == s.count + t.new_tiles && forces[2].fy > 0 ? 0 : 1;
}
