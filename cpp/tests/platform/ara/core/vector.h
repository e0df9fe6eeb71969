/// A platform in the small, to build the tests with: nothing in it is more than the standard asks.
#pragma once

#include <vector>

namespace ara::core {

template <class T, class Allocator = std::allocator<T>>
class Vector : public std::vector<T, Allocator> {
 public:
  using std::vector<T, Allocator>::vector;
};

}  // namespace ara::core
