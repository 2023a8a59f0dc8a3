// Every text of up to six signs, over all signs of terms, three digits and a blank, read by one implementation beside
// the plain version.

#ifndef HOST_EVERY_TEXT_HPP
#define HOST_EVERY_TEXT_HPP

#include "harness.hpp"
#include "terms.hpp"

namespace host {

class EveryText {
public:
    // With 10 kinds and 10 joints some two-digit numbers are in range as links and none as joints or kinds.
    explicit EveryText(const paper::Calls& calls) : tried(calls)
    {
        Random random(10);
        block = fresh_block(chain_kinds(count, random), count);
    }

    // Gives a description of the first text that is read otherwise, or nothing; and how many were read.
    std::string failing(size_t most_signs, size_t& texts)
    {
        const Bytes before = block;
        for (size_t length = 0; length <= most_signs; length++) {
            std::vector<size_t> signs(length, 0);
            for (bool more = true; more; more = next(signs)) {
                texts++;
                const std::string problem = read(signs);
                if (!problem.empty())
                    return problem;
            }
        }
        return block == before ? "" : "reading a term changed the block";
    }

private:
    static constexpr size_t count = 10;
    static constexpr size_t room = 40; // six signs say one fact at most
    static constexpr Byte untouched = 0xee;

    static bool next(std::vector<size_t>& signs)
    {
        for (size_t i = signs.size(); i-- > 0;) {
            if (++signs[i] < few_signs.size())
                return true;
            signs[i] = 0;
        }
        return false;
    }

    // The text ends where memory ends that may be touched.
    std::string read(const std::vector<size_t>& signs)
    {
        Lent text;
        text.lie = Lie::at_end;
        text.bytes.resize(signs.size());
        for (size_t i = 0; i < signs.size(); i++)
            text.bytes[i] = static_cast<Byte>(few_signs[signs[i]]);
        std::array<Byte, room> out, wanted;
        out.fill(untouched);
        wanted.fill(untouched);
        const Byte* const at = memory.lend(text);
        const Answer expected = {
            paper::read_typed(count, count, text.bytes.data(), text.bytes.size(), wanted.data(), room)};
        const Answer answer = {tried.read_term(block.data(), block.size(), at, text.bytes.size(), out.data(), room)};
        memory.give_back();
        if (answer == expected && out == wanted)
            return "";
        return "the text '" + text_of(text.bytes) + "' gave " + answer.text() + ", expected " + expected.text() +
               (out == wanted ? "" : ", and another output");
    }

    const paper::Calls& tried;
    Bytes block;
    LentMemory memory;
};

} // namespace host

#endif
