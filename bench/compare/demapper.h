/* What the comparison asks of each library: a soft demapper of one modulation, with the library's own points, labels and scale. The speed of
 * every library is measured through Demapper. The exactness of those that do not hand out softdemap's integers needs ScaledDemapper. */
#ifndef SOFTDEMAP_COMPARE_DEMAPPER_H
#define SOFTDEMAP_COMPARE_DEMAPPER_H

#include <complex>
#include <cstddef>
#include <functional>
#include <memory>
#include <string>
#include <vector>

enum { PAM = 0, QAM = 1, PSK = 2, CELLULAR = 3, BLOCK = 256, BLOCKS = 256, RECEIVED = BLOCK * BLOCKS };

struct Modulation {
    const char *name;
    int kind, bits_i, bits_q;
    int bits() const { return bits_i + bits_q; }
};

using Sample = std::complex<double>;

/* A point of a library's constellation. The bit of the label's first soft value is its most significant one. */
struct Point {
    Sample at;
    unsigned label;
};

/* What a library says that it hands out for a bit, d0 and d1 being the least squared distances to its points with the bit 0 and 1:
 * offset + factor * (d1 - d0), held within low to high. */
struct Scale {
    double offset, factor, low, high;
};

class Demapper
{
public:
    virtual ~Demapper() = default;
    virtual std::vector<Point> points() const = 0;
    /* Takes samples, in units of the points, and the noise power N0 (noise_power in received.h) into the library's own types. */
    virtual void receive(const std::vector<Sample> &samples, double noise_power) = 0;
    /* Reads the 256 samples from 256 * block on, in the library's own way: what is timed. */
    virtual void demap(size_t block) = 0;
};

class ScaledDemapper : public Demapper
{
public:
    virtual Scale scale() const = 0;
    /* The soft values of the block read last, in order. */
    virtual std::vector<double> soft_values() const = 0;
};

/* Each makes a demapper of the modulation, or nothing where the library has no such modulation. */
std::unique_ptr<Demapper> make_softdemap(const Modulation &m);
std::unique_ptr<Demapper> make_plain_c(const Modulation &m);
std::unique_ptr<ScaledDemapper> make_itpp_approx(const Modulation &m);
std::unique_ptr<ScaledDemapper> make_itpp_logmap(const Modulation &m);
std::unique_ptr<ScaledDemapper> make_liquid(const Modulation &m);
std::unique_ptr<ScaledDemapper> make_gnuradio(const Modulation &m);
std::unique_ptr<ScaledDemapper> make_gnuradio_table(const Modulation &m);
std::unique_ptr<ScaledDemapper> make_gnuradio_fitted_table(const Modulation &m);

/* What a library does with bad input, in words; a call may end the process, so each runs in one of its own. The order is that of the
 * rows in bad_input.cpp. An empty function: the library has no such input. */
using Trials = std::vector<std::function<std::string()>>;
Trials softdemap_trials();
Trials itpp_trials();
Trials liquid_trials();
Trials gnuradio_trials();

/* The bits of a number, the most significant of `bits` first. */
inline unsigned bit_of(unsigned label, int bits, int i)
{
    return label >> (bits - 1 - i) & 1;
}

#endif
