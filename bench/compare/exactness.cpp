/* The soft values of the other libraries beside those of a search over all of their own points in long double, on their own scale. */
#include <algorithm>
#include <cmath>
#include <cstdio>

#include "received.h"
#include "tables.h"

namespace
{

/* What a soft value is compared with, d being the distance of a sample to a point: the least d^2 (max-log), the logarithm of the sum of
 * exp(-d^2 / N0) (Log-MAP), or that of exp(-d / N0). */
enum Reference { MAX_LOG, LOG_MAP, LOG_MAP_UNSQUARED };

struct Errors {
    size_t values = 0, clear = 0; /* clear: the exact value is at least 1 % of its mean size, and 2 units for bytes */
    size_t infinite = 0, nan = 0; /* of all */
    size_t off = 0, no_lean = 0;  /* of the clear ones; no_lean has another sign than the exact value, or none */
    double largest = 0;           /* for bytes in units, else relative to the exact value, over the clear ones */
};

double percent(size_t part, size_t whole)
{
    return whole == 0 ? 0 : 100.0 * (double)part / (double)whole;
}

/* the exact difference of each bit of a symbol: cost of the points with the bit 1 less cost of those with the bit 0 */
void add_differences(const std::vector<Point> &points, int bits, Sample y, Reference reference, long double power, std::vector<double> &to)
{
    std::vector<long double> cost(points.size());
    for (size_t k = 0; k < points.size(); k++) {
        long double re = (long double)y.real() - points[k].at.real(), im = (long double)y.imag() - points[k].at.imag();
        cost[k] = reference == LOG_MAP_UNSQUARED ? std::sqrt(re * re + im * im) : re * re + im * im;
    }
    for (int i = 0; i < bits; i++) {
        long double least[2] = {INFINITY, INFINITY}, sum[2] = {0, 0};
        for (size_t k = 0; k < points.size(); k++) {
            long double &best = least[bit_of(points[k].label, bits, i)];
            best = std::min(best, cost[k]);
        }
        if (reference != MAX_LOG) {
            for (size_t k = 0; k < points.size(); k++) {
                unsigned bit = bit_of(points[k].label, bits, i);
                sum[bit] += std::exp((least[bit] - cost[k]) / power);
            }
            for (int bit = 0; bit < 2; bit++)
                least[bit] -= power * std::log(sum[bit]);
        }
        to.push_back((double)(least[1] - least[0]));
    }
}

double held(double x, const Scale &s)
{
    return std::min(std::max(x, s.low), s.high);
}

/* got beside exact, both in the library's scale */
Errors compare(const std::vector<double> &got, const std::vector<double> &differences, const Scale &s)
{
    Errors e;
    bool bytes = std::isfinite(s.high);
    double mean = 0;
    for (double d : differences)
        mean += std::fabs(s.factor * d) / (double)differences.size();
    for (size_t i = 0; i < got.size(); i++) {
        double exact = s.factor * differences[i], lean = got[i] - s.offset;
        double error = std::fabs(got[i] - held(s.offset + exact, s)) / (bytes ? 1 : std::fabs(exact));
        e.values++;
        e.infinite += std::isinf(got[i]);
        e.nan += std::isnan(got[i]);
        if (std::fabs(exact) < std::max(0.01 * mean, bytes ? 2.0 : 0.0))
            continue;
        e.clear++;
        e.off += !(error <= (bytes ? 1.001 : 0.01));
        e.no_lean += !(lean * exact > 0);
        if (error > e.largest)
            e.largest = error;
    }
    return e;
}

/* Reads `samples`, a multiple of 256, and hands back all soft values. */
std::vector<double> read_all(ScaledDemapper &d, const std::vector<Sample> &samples, double power)
{
    std::vector<double> all;
    d.receive(samples, power);
    for (size_t block = 0; block < samples.size() / BLOCK; block++) {
        d.demap(block);
        std::vector<double> some = d.soft_values();
        all.insert(all.end(), some.begin(), some.end());
    }
    return all;
}

/* the number that a binary32 number can hold, which every library is given */
double as_float(double x)
{
    return (double)(float)x;
}

/* Errors against each of the references, on the same samples; the library is told `power` as N0. */
std::vector<Errors> measure(ScaledDemapper &d, const Modulation &m, double noise, double power, const std::vector<Reference> &references)
{
    std::vector<Point> points = d.points();
    std::vector<Sample> samples = received(m, points, noise, m.bits() > 8 ? BLOCK : 16 * BLOCK);
    for (Sample &y : samples)
        y = Sample(as_float(y.real()), as_float(y.imag()));
    std::vector<double> got = read_all(d, samples, power);
    std::vector<Errors> all;
    for (Reference reference : references) {
        std::vector<double> exact;
        for (const Sample &y : samples)
            add_differences(points, m.bits(), y, reference, power, exact);
        all.push_back(compare(got, exact, d.scale()));
    }
    return all;
}

/* the N0 of the noise */
double true_power(const Demapper &d, double noise)
{
    return as_float(noise_power(d.points(), noise));
}

/* Errors where the library is told the N0 of the noise. */
Errors measure(ScaledDemapper &d, const Modulation &m, double noise, Reference reference)
{
    return measure(d, m, noise, true_power(d, noise), {reference})[0];
}

/* bits of the points themselves, without noise, that have another lean than their label, or none; "wrong of all" */
std::string wrong_without_noise(ScaledDemapper &d, const Modulation &m, double power)
{
    std::vector<Point> points = d.points();
    std::vector<Sample> samples;
    for (size_t n = 0; n < points.size() || n % BLOCK != 0; n++)
        samples.push_back(points[n % points.size()].at);
    std::vector<double> got = read_all(d, samples, power);
    Scale s = d.scale();
    size_t wrong = 0, bits = (size_t)m.bits();
    for (size_t k = 0; k < points.size(); k++) {
        for (size_t i = 0; i < bits; i++) {
            double sign = bit_of(points[k].label, m.bits(), (int)i) == 0 ? s.factor : -s.factor;
            wrong += !((got[k * bits + i] - s.offset) * sign > 0);
        }
    }
    return std::to_string(wrong) + " of " + std::to_string(points.size() * bits);
}

void print_liquid()
{
    printf("\n| liquid-dsp | values | off by more than 1 of 255, %% | largest error, of 255 | wrong or no lean, %% | wrong bits without noise |\n");
    printf("|---|---|---|---|---|---|\n");
    for (const Modulation &m : compared_modulations) {
        std::unique_ptr<ScaledDemapper> d = make_liquid(m);
        if (!d)
            continue;
        Errors e = measure(*d, m, NOISY, MAX_LOG);
        printf("| %s | %zu | %.2f | %.1f | %.2f | %s |\n", m.name, e.values, percent(e.off, e.clear), e.largest, percent(e.no_lean, e.clear),
               wrong_without_noise(*d, m, 1).c_str());
    }
}

void print_itpp()
{
    printf("\n| IT++ | values | APPROX: largest error | wrong or no lean, %% | wrong bits without noise | LOGMAP: off by more than 1 %%, %% | "
           "quiet: off by more than 1 %%, %% | quiet: wrong or no lean, %% |\n");
    printf("|---|---|---|---|---|---|---|---|\n");
    for (const Modulation &m : compared_modulations) {
        std::unique_ptr<ScaledDemapper> approx = make_itpp_approx(m), logmap = make_itpp_logmap(m);
        Errors a = measure(*approx, m, NOISY, MAX_LOG), noisy = measure(*logmap, m, NOISY, LOG_MAP), quiet = measure(*logmap, m, QUIET, LOG_MAP);
        printf("| %s | %zu | %.0e | %.2f | %s | %.2f | %.2f | %.2f |\n", m.name, a.values, a.largest, percent(a.no_lean, a.clear),
               wrong_without_noise(*approx, m, 1).c_str(), percent(noisy.off, noisy.clear), percent(quiet.off, quiet.clear),
               percent(quiet.no_lean, quiet.clear));
    }
}

void print_gnuradio_calculated()
{
    printf("\n| GNU Radio, calculated | values | off by more than 1 %% from exp(−d/N0), %% | from Log-MAP, %% | from max-log, %% | "
           "wrong or no lean, %% | wrong bits without noise | told N0 = 1: wrong or no lean, %% | quiet: infinite, %% | quiet: NaN, %% |\n");
    printf("|---|---|---|---|---|---|---|---|---|---|\n");
    for (const Modulation &m : compared_modulations) {
        std::unique_ptr<ScaledDemapper> d = make_gnuradio(m);
        double power = true_power(*d, NOISY);
        std::vector<Errors> e = measure(*d, m, NOISY, power, {LOG_MAP_UNSQUARED, LOG_MAP, MAX_LOG});
        Errors told_1 = measure(*d, m, NOISY, 1, {MAX_LOG})[0], quiet = measure(*d, m, QUIET, MAX_LOG);
        printf("| %s | %zu | %.2f | %.2f | %.2f | %.2f | %s | %.2f | %.2f | %.2f |\n", m.name, e[0].values, percent(e[0].off, e[0].clear),
               percent(e[1].off, e[1].clear), percent(e[2].off, e[2].clear), percent(e[2].no_lean, e[2].clear),
               wrong_without_noise(*d, m, power).c_str(), percent(told_1.no_lean, told_1.clear), percent(quiet.infinite, quiet.values),
               percent(quiet.nan, quiet.values));
    }
}

/* three cells for a table: off from exp(-d/N0), wrong or no lean, wrong bits without noise */
std::string table_cells(ScaledDemapper &d, const Modulation &m, size_t &values)
{
    double power = true_power(d, NOISY);
    std::vector<Errors> e = measure(d, m, NOISY, power, {LOG_MAP_UNSQUARED, MAX_LOG});
    char shares[80];
    snprintf(shares, sizeof shares, " %.2f | %.2f | ", percent(e[0].off, e[0].clear), percent(e[1].no_lean, e[1].clear));
    values = e[0].values;
    return shares + wrong_without_noise(d, m, power) + " |";
}

void print_gnuradio_tables()
{
    printf("\n| GNU Radio, table | values | off by more than 1 %% from exp(−d/N0), %% | wrong or no lean, %% | wrong bits without noise | points "
           "within ±0.9: off by more than 1 %%, %% | wrong or no lean, %% | wrong bits without noise |\n");
    printf("|---|---|---|---|---|---|---|---|\n");
    for (const Modulation &m : compared_modulations) {
        std::unique_ptr<ScaledDemapper> usual = make_gnuradio_table(m), fitted = make_gnuradio_fitted_table(m);
        if (!usual)
            continue;
        size_t values;
        std::string cells = table_cells(*usual, m, values) + table_cells(*fitted, m, values);
        printf("| %s | %zu |%s\n", m.name, values, cells.c_str());
    }
}

} // namespace

void print_exactness()
{
    print_liquid();
    print_itpp();
    print_gnuradio_calculated();
    print_gnuradio_tables();
}
