/// A stand-in for the platform's header of the same name; a platform's own comes first where its directory does.
#pragma once

#include <array>

namespace ara::core {

template <class T, std::size_t N>
using Array = std::array<T, N>;

}  // namespace ara::core
