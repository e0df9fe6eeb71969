/// A platform in the small, to build the tests with: nothing in it is more than the standard asks.
#pragma once

#include <array>

namespace ara::core {

template <class T, std::size_t N>
using Array = std::array<T, N>;

}  // namespace ara::core
