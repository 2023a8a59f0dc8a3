// How often things were hit that have a name, and which of those that should have been were not.

#ifndef HOST_HITS_HPP
#define HOST_HITS_HPP

#include <cstddef>
#include <cstdio>
#include <map>
#include <string>
#include <vector>

namespace host {

class Hits {
public:
    void hit(const std::string& what) { times[what]++; }

    std::size_t of(const std::string& what) const
    {
        const auto found = times.find(what);
        return found == times.end() ? 0 : found->second;
    }

    void print(const char* heading) const
    {
        std::string line = heading;
        for (const auto& [what, count] : times) {
            const std::string item = " " + what + ": " + std::to_string(count) + ";";
            if (line.size() + item.size() > 100) {
                std::printf("%s\n", line.c_str());
                line = "            ";
            }
            line += item;
        }
        std::printf("%s\n", line.c_str());
    }

    // A line for each of these that was never hit.
    std::string missing(const std::vector<const char*>& wanted) const
    {
        std::string text;
        for (const char* what : wanted)
            if (of(what) == 0)
                text += std::string("  never hit: ") + what + "\n";
        return text;
    }

private:
    std::map<std::string, std::size_t> times;
};

} // namespace host

#endif
