// Opens one table that the library refuses, so that its reads can be counted from outside (bench/reads).
//
//   reads N pair|early|late

#include "vornulica.h"
#include "work.hpp"

#include <cstdio>
#include <cstdlib>
#include <string>

// Whoever counts finds it by its name, and nothing but the library reads it.
extern "C" {
host::Byte lent_table[RIG_MAX_KINDS * RIG_MAX_KINDS];
}

namespace bench {
namespace {

struct Refused {
    Kinds kinds;
    size_t place; // of the first breach
};

// Only the last two kinds do not commute: every law before the triples is looked at, and no triple.
Kinds broken_pair(size_t n)
{
    host::Random random(n);
    Kinds kinds = host::flat_kinds(n, random);
    kinds.table[(n - 1) * n + n - 2] = 1;
    return kinds;
}

Refused refused(const std::string& name, size_t n)
{
    if (name == "pair")
        return {broken_pair(n), (n - 2) * n + n - 1};
    if (name == "early")
        return {broken_early(n), 2 * n + 3};
    return {broken_late(n), (n - 3) * n + n - 2};
}

bool is_refused_there(const Refused& table)
{
    static host::Byte block[RIG_BLOCK_SIZE];
    std::copy(table.kinds.table.begin(), table.kinds.table.end(), lent_table);
    const std::uint64_t answer = rig_open(table.kinds.n, 1, lent_table, table.kinds.table.size(), block, sizeof block);
    return rig_number(answer) == RIG_LAW_BROKEN && rig_place(answer) == table.place;
}

} // namespace
} // namespace bench

int main(int argc, char** argv)
{
    const std::string name = argc == 3 ? argv[2] : "";
    const int n = argc == 3 ? std::atoi(argv[1]) : 0;
    if (n < 5 || n > RIG_MAX_KINDS || (name != "pair" && name != "early" && name != "late")) {
        std::fprintf(stderr, "usage: reads N pair|early|late, with N from 5 to 64\n");
        return 2;
    }
    if (!bench::is_refused_there(bench::refused(name, static_cast<size_t>(n)))) {
        std::fprintf(stderr, "reads: n = %d, %s: the table is not refused where it is broken\n", n, name.c_str());
        return 1;
    }
}
