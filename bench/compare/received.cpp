#include "received.h"

#include <cmath>

#include "../timing.h"

/* the first draw again, so that every library gets the same */
static void restart_draws()
{
    state = 88172645463325252u;
}

static double uniform()
{
    return (random32() + 0.5) / 4294967296.0;
}

static double gaussian()
{
    return std::sqrt(-2 * std::log(uniform())) * std::cos(2 * M_PI * uniform());
}

/* half of the smallest distance of two points; in each of these constellations every point has a neighbour so near */
static double half_distance(const std::vector<Point> &points)
{
    double least = INFINITY;
    for (size_t i = 1; i < points.size(); i++)
        least = std::min(least, std::abs(points[i].at - points[0].at));
    return least / 2;
}

std::vector<Sample> received(const Modulation &m, const std::vector<Point> &points, double noise, size_t count)
{
    double deviation = noise * half_distance(points);
    std::vector<Sample> samples(count);
    restart_draws();
    for (Sample &y : samples) {
        const Sample &sent = points[random32() % points.size()].at;
        double in_phase = gaussian(), quadrature = gaussian();
        y = sent + deviation * Sample(in_phase, m.kind == PAM ? 0 : quadrature);
    }
    return samples;
}

double noise_power(const std::vector<Point> &points, double noise)
{
    double deviation = noise * half_distance(points);
    return 2 * deviation * deviation;
}

std::vector<uint16_t> fading_gains(size_t count)
{
    std::vector<uint16_t> gains(count);
    restart_draws();
    for (uint16_t &gain : gains)
        gain = (uint16_t)(200 + random32() % 3000);
    return gains;
}
