#include "options.h"

#include <functional>
#include <map>
#include <stdexcept>

namespace transfers {

const char *const USAGE =
    "transfers [OPTION VALUE]..\n"
    "  --locks ours|rocksdb   our lock table over a plain DB (default), or RocksDB's TransactionDB\n"
    "  --threads N            1 to 1024 (4)\n"
    "  --seconds N            how long it runs (3)\n"
    "  --transactions N       it ends after so many, if the seconds are not over before; 0 for no bound (0)\n"
    "  --accounts N           from 2 (100000)\n"
    "  --hot N                use only the first N accounts; 0 for all (0)\n"
    "  --reads N              of 100 transactions, how many only read two accounts (0)\n"
    "  --trace FILE           ours: write the lock histories, and check them\n"
    "  --db FOLDER            where the database is, which is kept (a temporary folder, which goes)\n";

static uint64_t number_of(const std::string &word, uint64_t least, uint64_t most) {
    if (word.empty() || word.size() > 18 || word.find_first_not_of("0123456789") != std::string::npos) {
        throw std::invalid_argument("not a number: " + word);
    }
    const uint64_t number = std::stoull(word);
    if (number < least || number > most) {
        throw std::invalid_argument("out of range: " + word);
    }
    return number;
}

static bool is_ours(const std::string &word) {
    if (word != "ours" && word != "rocksdb") {
        throw std::invalid_argument("neither ours nor rocksdb: " + word);
    }
    return word == "ours";
}

static void test(const Options &options) {
    if (options.hot == 1 || options.hot > options.accounts) {
        throw std::invalid_argument("--hot needs 2 accounts or more, and not more than there are");
    }
    if (!options.ours && !options.trace.empty()) {
        throw std::invalid_argument("--trace needs --locks ours");
    }
}

Options read_options(int count, char **words) {
    Options options;
    const std::map<std::string, std::function<void(const std::string &)>> setters = {
        {"--locks", [&](const std::string &word) { options.ours = is_ours(word); }},
        {"--threads", [&](const std::string &word) { options.threads = number_of(word, 1, 1024); }},
        {"--seconds", [&](const std::string &word) { options.seconds = number_of(word, 1, 1000000); }},
        {"--transactions", [&](const std::string &word) { options.transactions = number_of(word, 0, 1000000000); }},
        {"--accounts", [&](const std::string &word) { options.accounts = number_of(word, 2, 1000000000); }},
        {"--hot", [&](const std::string &word) { options.hot = number_of(word, 0, 1000000000); }},
        {"--reads", [&](const std::string &word) { options.reads = number_of(word, 0, 100); }},
        {"--trace", [&](const std::string &word) { options.trace = word; }},
        {"--db", [&](const std::string &word) { options.folder = word; }},
    };
    for (int i = 1; i < count; i += 2) {
        const auto setter = setters.find(words[i]);
        if (setter == setters.end() || i + 1 == count) {
            throw std::invalid_argument(std::string("unknown or without a value: ") + words[i]);
        }
        setter->second(words[i + 1]);
    }
    test(options);
    return options;
}

}
