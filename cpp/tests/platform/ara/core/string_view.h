/// A platform in the small, to build the tests with: nothing in it is more than the standard asks.
#pragma once

#include <string_view>

namespace ara::core {

using StringView = std::string_view;

}  // namespace ara::core
