// docs/KINDS.md against the enums of both headers and against the table that the library gives. house_kinds.inc, made
// of the page by the script beside this file, has a line KIND(number, name, NAME, "direct parents") for each row.

#include "expect.h"
#include "vornulica.hpp"

#include <string>

namespace {

struct Row {
    std::size_t number;
    std::string name; // with _ between words
    std::string parents;
};

const Row rows[] = {
#define KIND(number, name, NAME, parents) {number, #name, parents},
#include "house_kinds.inc"
#undef KIND
};
static_assert(sizeof rows / sizeof rows[0] == RIG_HOUSE_KINDS);

#define KIND(number, name, NAME, parents)       \
    static_assert(RIG_KIND_##NAME == (number)); \
    static_assert(static_cast<int>(vornulica::HouseKind::name) == (number));
#include "house_kinds.inc"
#undef KIND

const vornulica::HouseTable table = vornulica::house_table();

bool is_under(std::size_t kind, std::size_t other) { return table[kind * RIG_HOUSE_KINDS + other] == kind; }

bool is_strictly_under(std::size_t kind, std::size_t other) { return kind != other && is_under(kind, other); }

bool is_direct_parent(std::size_t parent, std::size_t kind)
{
    for (std::size_t between = 0; between < RIG_HOUSE_KINDS; between++)
        if (is_strictly_under(kind, between) && is_strictly_under(between, parent))
            return false;
    return is_strictly_under(kind, parent);
}

std::string in_words(std::string name)
{
    for (char& letter : name)
        if (letter == '_')
            letter = ' ';
    return name;
}

// As the page writes them.
std::string direct_parents(std::size_t kind)
{
    std::string text;
    for (const Row& row : rows)
        if (is_direct_parent(row.number, kind))
            text += (text.empty() ? "" : ", ") + in_words(row.name) + " (" + std::to_string(row.number) + ")";
    return text;
}

} // namespace

int main()
{
    for (std::size_t i = 0; i < RIG_HOUSE_KINDS; i++) {
        EXPECT(rows[i].number == i);
        EXPECT(is_under(0, i));
        EXPECT(is_under(i, 1));
        if (i >= 2)
            EXPECT(rows[i].parents == direct_parents(i));
    }
    return expectations_missed == 0 ? 0 : 1;
}
