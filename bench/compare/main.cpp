/* The comparison of softdemap with liquid-dsp, IT++ and GNU Radio: prints the tables of docs/COMPARISON.md, or those of the parts that are
 * named as arguments: exactness, speed, bad-input. */
#include <algorithm>
#include <cstdio>

#include "tables.h"

const std::vector<Modulation> compared_modulations = {
    {"BPSK", PSK, 1, 0},  {"QPSK", PSK, 2, 0},   {"8-PSK", PSK, 3, 0},  {"16-PSK", PSK, 4, 0}, {"2-PAM", PAM, 1, 0},
    {"4-PAM", PAM, 2, 0}, {"8-PAM", PAM, 3, 0},  {"16-PAM", PAM, 4, 0}, {"32-PAM", PAM, 5, 0}, {"64-PAM", PAM, 6, 0},
    {"16-QAM", QAM, 2, 2}, {"64-QAM", QAM, 3, 3}, {"256-QAM", QAM, 4, 4}, {"4096-QAM", QAM, 6, 6},
};

int main(int argc, char **argv)
{
    const std::vector<std::string> named(argv + 1, argv + argc);
    auto asked = [&](const char *part) { return named.empty() || std::count(named.begin(), named.end(), part) > 0; };
    bool exact = true;
    if (asked("exactness")) {
        printf("### Exactness\n\n");
        exact = print_integers();
        print_exactness();
    }
    if (asked("speed")) {
        printf("\n### Speed, million symbols a second\n\n");
        print_speed();
    }
    if (asked("bad-input")) {
        printf("\n### Bad input\n\n");
        print_bad_input();
    }
    return exact ? 0 : 1;
}
