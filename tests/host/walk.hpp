// The calls of one seed's session, made in turn.

#ifndef HOST_WALK_HPP
#define HOST_WALK_HPP

#include "harness.hpp"
#include "sessions.hpp"
#include "watch.hpp"

namespace host {

// Makes each call by `make(where, call)`, until that gives false; gives whether it never did. The session goes on with
// the blocks that the plain version leaves.
template <typename Make> bool walk_session(std::uint64_t seed, const Side& plain, Make make)
{
    Session session(seed);
    Bytes block;
    Call call;
    for (size_t step = 0; session.next(block, call); step++) {
        const std::string where = "session of seed " + std::to_string(seed) + ", call " + std::to_string(step);
        watch::now_at(where);
        if (!make(where, call))
            return false;
        if (call.goes_on)
            block = plain.left(block_slot);
    }
    return true;
}

} // namespace host

#endif
