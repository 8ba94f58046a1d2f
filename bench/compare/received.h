/* The samples of the comparison: the same draws for every library, in units of its own constellation. */
#ifndef SOFTDEMAP_COMPARE_RECEIVED_H
#define SOFTDEMAP_COMPARE_RECEIVED_H

#include <cstdint>

#include "demapper.h"

/* The noise of a received signal, as the standard deviation on one axis over half of the smallest distance of two points: NOISY gives bit
 * errors as before a strong code, QUIET gives none. */
constexpr double NOISY = 0.5, QUIET = 0.05;

/* `count` random points with Gaussian noise. A PAM sample has noise on its one axis only. */
std::vector<Sample> received(const Modulation &m, const std::vector<Point> &points, double noise, size_t count);

/* N0 = 2 sigma^2, sigma being the standard deviation of that noise on an axis, in the units of the points. That is the mean squared size of
 * the noise, but for PAM, where it is twice that, since there is noise on one axis only. */
double noise_power(const std::vector<Point> &points, double noise);

/* The gains of a fading path: random from 200 to 3199. */
std::vector<uint16_t> fading_gains(size_t count);

#endif
