// A C++ version of documents 01 and 02, as far as 02 has landed, made for speed alone, by which the library's own is
// measured.

#ifndef BENCH_FAST_HPP
#define BENCH_FAST_HPP

#include "reference.hpp"

namespace fast {

extern const paper::Calls calls;

} // namespace fast

#endif
