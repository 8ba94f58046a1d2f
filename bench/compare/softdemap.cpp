/* softdemap: softdemap_frame, and behind the same interface the plain C of bench/reference.c. softdemap's integers are
 * compared in integers.cpp. */
#include "../../include/softdemap.h"

#include <cmath>

#include "outputs.h"
#include "received.h"
#include "trial.h"

extern "C" {
#include "../reference.h"
}

namespace
{

enum { PSK_RADIUS = 16384, WEIGHT = 100, LIMIT = 32767 };

using FrameCall = decltype(softdemap_frame);

/* the shift of bench/frames.c: most soft values below the limit, some held */
uint8_t shift_of(const Modulation &m)
{
    return m.kind == PSK ? 19 : 16;
}

class Softdemap : public Demapper
{
public:
    Softdemap(const Modulation &m, FrameCall *call)
        : m(m), call(call), yi(RECEIVED), yq(RECEIVED), hard(BLOCK * m.bits()), soft(BLOCK * m.bits()),
          probe_index(BLOCK * (m.bits() + 2)), probe_cost(BLOCK * (m.bits() + 2))
    {
    }

    std::vector<Point> points() const override
    {
        std::vector<Point> all;
        double unit = m.kind == PSK ? PSK_RADIUS : 1;
        for (unsigned label = 0; label < 1u << m.bits(); label++) {
            uint8_t bits[12];
            int32_t u = 0, v = 0;
            for (int i = 0; i < m.bits(); i++)
                bits[i] = (uint8_t)bit_of(label, m.bits(), i);
            softdemap_map((uint8_t)m.kind, (uint8_t)m.bits_i, (uint8_t)m.bits_q, 1, bits, (size_t)m.bits(), &u, 1, &v, 1);
            all.push_back({Sample(u / unit, v / unit), label});
        }
        return all;
    }

    void receive(const std::vector<Sample> &samples, double) override
    {
        gains = fading_gains(samples.size());
        for (size_t n = 0; n < samples.size(); n++) {
            double unit = m.kind == PSK ? (double)PSK_RADIUS : gains[n];
            yi[n] = (int32_t)std::lround(samples[n].real() * unit);
            yq[n] = (int32_t)std::lround(samples[n].imag() * unit);
        }
    }

    void demap(size_t block) override
    {
        size_t at = block * BLOCK;
        call((uint8_t)m.kind, (uint8_t)m.bits_i, (uint8_t)m.bits_q, (uint16_t)(BLOCK * m.bits()), WEIGHT, shift_of(m), LIMIT, &gains[at], BLOCK,
             &yi[at], BLOCK, &yq[at], m.kind == PAM ? 0 : BLOCK, hard.data(), hard.size(), soft.data(), soft.size(), probe_index.data(),
             probe_index.size(), probe_cost.data(), probe_cost.size());
    }

private:
    Modulation m;
    FrameCall *call;
    std::vector<uint16_t> gains;
    std::vector<int32_t> yi, yq;
    std::vector<uint8_t> hard;
    std::vector<int16_t> soft;
    std::vector<uint8_t> probe_index;
    std::vector<int64_t> probe_cost;
};

std::string refusal(uint64_t answer, const char *of, bool kept)
{
    std::string words = "refusal " + std::to_string(answer & 255);
    if (of != nullptr)
        words += std::string(" at ") + of + " " + std::to_string(answer >> 8);
    return words + (kept ? ", nothing written" : ", BUFFER CHANGED");
}

/* a capture of four pairs whose third has the number in phase */
std::string convert(float in_phase)
{
    float capture[8] = {0.1f, 0.3f, 0.1f, 0.3f, in_phase, 0.3f, 0.1f, 0.3f};
    int32_t yi[4] = {7, 7, 7, 7}, yq[4] = {7, 7, 7, 7};
    uint64_t answer = softdemap_samples_i32(QAM, 12, capture, 8, yi, 4, yq, 4);
    bool kept = true;
    for (int n = 0; n < 4; n++)
        kept = kept && yi[n] == 7 && yq[n] == 7;
    return refusal(answer, "sample", kept);
}

/* a frame of 16-QAM with what may be wrong in it; 2 symbols */
struct Setup {
    uint8_t kind = QAM, bits_i = 2;
    uint16_t payload = 8, weight = 1;
    size_t yi_len = 2, soft_len = 8;
};

std::string read_frame(const Setup &s)
{
    uint16_t gains[2] = {5, 5};
    int32_t yi[2] = {3, -3}, yq[2] = {-20, 2};
    Outputs<8, 12> out;
    out.fill();
    uint64_t answer = softdemap_frame(s.kind, s.bits_i, 2, s.payload, s.weight, 2, LIMIT, gains, 2, yi, s.yi_len, yq, 2, out.hard, 8, out.soft,
                                      s.soft_len, out.probe_index, 12, out.probe_cost, 12);
    if ((uint32_t)answer != 0)
        return refusal(answer, nullptr, out.changed_behind(0, 0) == 0);
    bool kept = out.changed_behind(s.payload, answer >> 32) == 0;
    return "serves it: soft values " + listed(out.soft, s.payload) + (kept ? ", the entries behind kept" : ", ENTRIES BEHIND CHANGED");
}

std::string map_bad_bit()
{
    uint8_t bits[4] = {0, 1, 2, 1};
    int32_t yi = 7, yq = 7;
    uint32_t answer = softdemap_map(QAM, 2, 2, 5, bits, 4, &yi, 1, &yq, 1);
    return refusal(answer, nullptr, yi == 7 && yq == 7);
}

Setup with(void (*change)(Setup &))
{
    Setup s;
    change(s);
    return s;
}

} // namespace

std::unique_ptr<Demapper> make_softdemap(const Modulation &m)
{
    return std::make_unique<Softdemap>(m, softdemap_frame);
}

std::unique_ptr<Demapper> make_plain_c(const Modulation &m)
{
    return std::make_unique<Softdemap>(m, reference_frame);
}

Trials softdemap_trials()
{
    return {
        [] { return convert(NAN); },
        [] { return convert(INFINITY); },
        [] { return convert(-INFINITY); },
        [] { return convert(1e30f); },
        [] { return read_frame(with([](Setup &s) { s.soft_len = 7; })); },
        [] { return read_frame(with([](Setup &s) { s.yi_len = 1; })); },
        [] { return read_frame(with([](Setup &s) { s.payload = 5; })); },
        [] { return "weight 0: " + read_frame(with([](Setup &s) { s.weight = 0; })); },
        [] { return "weight −1 as 16 bits: " + read_frame(with([](Setup &s) { s.weight = (uint16_t)-1; })); },
        [] {
            return "kind 4: " + read_frame(with([](Setup &s) { s.kind = 4; })) + "; 7 bits on an axis: "
                   + read_frame(with([](Setup &s) { s.bits_i = 7; }));
        },
        {},
        map_bad_bit,
    };
}
