/* What does the command line of `transfers` ask for? */
#ifndef TRANSFERS_OPTIONS_H
#define TRANSFERS_OPTIONS_H

#include <cstdint>
#include <string>

namespace transfers {

struct Options {
    bool ours = true;
    uint32_t threads = 4;
    uint32_t seconds = 3;
    uint64_t transactions = 0; /* it ends after so many, if the seconds are not over before; 0 for no bound */
    uint64_t accounts = 100000;
    uint64_t hot = 0;   /* transactions use only the first so many accounts; 0 for all */
    uint32_t reads = 0; /* of 100 transactions, how many only read */
    std::string trace;  /* the file for the trace, or empty */
    std::string folder; /* for the database, which is kept; empty for a temporary one */
};

/* Throws std::invalid_argument if the command line is wrong. */
Options read_options(int count, char **words);

extern const char *const USAGE;

}

#endif
