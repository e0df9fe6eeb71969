/// A stand-in for the platform's header of the same name; a platform's own comes first where its directory does.
#pragma once

#include <utility>

#include "ara/core/string.h"
#include "ara/core/string_view.h"

namespace ara::core {

/// Which storage of the program is meant: its name in the manifest.
class InstanceSpecifier final {
 public:
  explicit InstanceSpecifier(StringView path) : path_{path} {}

  [[nodiscard]] StringView ToString() const noexcept { return path_; }

  [[nodiscard]] bool operator==(const InstanceSpecifier& other) const noexcept { return path_ == other.path_; }
  [[nodiscard]] bool operator!=(const InstanceSpecifier& other) const noexcept { return path_ != other.path_; }
  [[nodiscard]] bool operator<(const InstanceSpecifier& other) const noexcept { return path_ < other.path_; }

 private:
  String path_;
};

}  // namespace ara::core
