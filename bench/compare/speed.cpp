/* Million symbols a second of every library, block by block of 256 symbols out of 65,536 received ones. In each of several passes over the
 * modulations all libraries take turns in many rounds; a pass gives the median of the rounds, and the fastest pass counts, since the speed of
 * a virtual machine changes by the second. A call that needs more than a tenth of a millisecond a block is timed by one block, others by 16. */
#include <algorithm>
#include <cmath>
#include <cstdio>

#include "../timing.h"
#include "received.h"
#include "tables.h"

namespace
{

enum { PASSES = 5, LEAST_ROUNDS = 5, MOST_ROUNDS = 501 };
constexpr double BUDGET = 40e6; /* nanoseconds for each library and modulation in a pass */

const struct {
    const char *name;
    std::function<std::unique_ptr<Demapper>(const Modulation &)> make;
} columns[] = {
    {"softdemap", make_softdemap},     {"plain C", make_plain_c},   {"IT++ APPROX", make_itpp_approx},
    {"IT++ LOGMAP", make_itpp_logmap}, {"liquid-dsp", make_liquid}, {"GNU Radio, calculated", make_gnuradio},
    {"GNU Radio, table", make_gnuradio_table},
};

/* one library in the race: how many blocks it is timed by, how often, and the nanoseconds of a symbol */
struct Runner {
    std::unique_ptr<Demapper> demapper;
    size_t blocks = 0, rounds = 0;
    std::vector<double> times;
    double best = INFINITY;

    void run(size_t round)
    {
        size_t from = round * blocks % BLOCKS;
        double start = now();
        for (size_t block = from; block < from + blocks; block++)
            demapper->demap(block);
        times.push_back((now() - start) / (double)(blocks * BLOCK));
    }

    void end_pass()
    {
        best = std::min(best, median(times.data(), times.size()));
        times.clear();
    }
};

/* a runner with its samples, after two blocks to warm up; without a demapper where the library has none */
Runner ready(std::unique_ptr<Demapper> demapper, const Modulation &m)
{
    Runner r;
    if (!demapper)
        return r;
    std::vector<Point> points = demapper->points();
    demapper->receive(received(m, points, NOISY, RECEIVED), noise_power(points, NOISY));
    demapper->demap(0);
    double start = now();
    demapper->demap(1);
    double block = now() - start;
    r.blocks = block > 1e5 ? 1 : 16;
    r.rounds = std::clamp<size_t>((size_t)(BUDGET / (block * (double)r.blocks)), LEAST_ROUNDS, MOST_ROUNDS);
    r.demapper = std::move(demapper);
    return r;
}

void run_pass(std::vector<Runner> &runners)
{
    for (size_t round = 0; round < MOST_ROUNDS; round++)
        for (Runner &r : runners)
            if (round < r.rounds)
                r.run(round);
    for (Runner &r : runners)
        if (r.demapper)
            r.end_pass();
}

/* a cell with three digits, whole numbers from 100 on; empty where there is no demapper */
void print_millions(const Runner &r)
{
    double symbols = 1e3 / r.best;
    if (!r.demapper)
        printf(" |");
    else
        printf(symbols >= 100 ? " %.0f |" : " %.3g |", symbols);
}

} // namespace

void print_speed()
{
    std::vector<std::vector<Runner>> rows;
    for (const Modulation &m : compared_modulations) {
        std::vector<Runner> &row = rows.emplace_back();
        for (const auto &column : columns)
            row.push_back(ready(column.make(m), m));
    }
    for (int pass = 0; pass < PASSES; pass++)
        for (std::vector<Runner> &row : rows)
            run_pass(row);
    printf("| |");
    for (const auto &column : columns)
        printf(" %s |", column.name);
    printf("\n|---|---|---|---|---|---|---|---|\n");
    for (size_t i = 0; i < rows.size(); i++) {
        printf("| %s |", compared_modulations[i].name);
        for (const Runner &r : rows[i])
            print_millions(r);
        printf("\n");
    }
}
