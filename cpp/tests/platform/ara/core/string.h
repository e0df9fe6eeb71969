/// A platform in the small, to build the tests with: nothing in it is more than the standard asks.
#pragma once

#include <string>
#include <utility>

namespace ara::core {

class String : public std::string {
 public:
  using std::string::string;
  String(std::string text) : std::string{std::move(text)} {}
};

}  // namespace ara::core
