/// A platform in the small, to build the tests with: nothing in it is more than the standard asks.
#pragma once

#include "ara/core/string.h"
#include "ara/core/string_view.h"

namespace ara::core {

class InstanceSpecifier {
 public:
  explicit InstanceSpecifier(StringView path) : path_{path.data(), path.size()} {}
  StringView ToString() const noexcept { return path_; }

 private:
  String path_;
};

}  // namespace ara::core
