/// A stand-in for the platform's header of the same name; a platform's own comes first where its directory does.
#pragma once

#include <string_view>

namespace ara::core {

using StringView = std::string_view;

}  // namespace ara::core
