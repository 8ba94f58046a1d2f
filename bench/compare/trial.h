/* Words about what a call did, for the trials with bad input. */
#ifndef SOFTDEMAP_COMPARE_TRIAL_H
#define SOFTDEMAP_COMPARE_TRIAL_H

#include <cstddef>
#include <cstdio>
#include <sstream>
#include <string>

/* numbers with a space between */
template <typename T> std::string listed(const T *numbers, size_t count)
{
    std::ostringstream out;
    out.precision(3);
    for (size_t i = 0; i < count; i++) {
        out << (i == 0 ? "" : " ");
        if (numbers[i] != numbers[i])
            out << "NaN";
        else
            out << +numbers[i];
    }
    return out.str();
}

/* words that are to stand even where the next call ends the process */
inline void said(const char *words)
{
    fputs(words, stdout);
    fflush(stdout);
}

#endif
