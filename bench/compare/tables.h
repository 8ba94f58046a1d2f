/* The parts of the comparison, each of which prints its tables as Markdown. */
#ifndef SOFTDEMAP_COMPARE_TABLES_H
#define SOFTDEMAP_COMPARE_TABLES_H

#include <vector>

#include "demapper.h"

extern const std::vector<Modulation> compared_modulations;

/* softdemap beside an exhaustive search in integers, every modulation; false where an entry differs */
bool print_integers();
/* the other libraries beside an exhaustive search over their own points */
void print_exactness();
/* million symbols a second */
void print_speed();
/* what each library does with bad input */
void print_bad_input();

#endif
