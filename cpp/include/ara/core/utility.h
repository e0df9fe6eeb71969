/// A stand-in for the platform's header of the same name; a platform's own comes first where its directory does.
#pragma once

#include <cstddef>

namespace ara::core {

using Byte = std::byte;

}  // namespace ara::core
