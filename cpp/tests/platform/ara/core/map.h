/// A platform in the small, to build the tests with: nothing in it is more than the standard asks.
#pragma once

#include <map>

namespace ara::core {

template <class Key, class T, class Compare = std::less<Key>, class Allocator = std::allocator<std::pair<const Key, T>>>
using Map = std::map<Key, T, Compare, Allocator>;

}  // namespace ara::core
