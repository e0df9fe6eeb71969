/// A stand-in for the platform's header of the same name; a platform's own comes first where its directory does.
#pragma once

#include <map>

namespace ara::core {

template <class Key, class T, class Compare = std::less<Key>, class Allocator = std::allocator<std::pair<const Key, T>>>
using Map = std::map<Key, T, Compare, Allocator>;

}  // namespace ara::core
