/// A stand-in for the platform's header of the same name; a platform's own comes first where its directory does.
#pragma once

#include <string>

namespace ara::core {

using String = std::string;

}  // namespace ara::core
