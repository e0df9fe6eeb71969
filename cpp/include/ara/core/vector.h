/// A stand-in for the platform's header of the same name; a platform's own comes first where its directory does.
#pragma once

#include <vector>

namespace ara::core {

template <class T, class Allocator = std::allocator<T>>
using Vector = std::vector<T, Allocator>;

}  // namespace ara::core
