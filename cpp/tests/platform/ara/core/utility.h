/// A platform in the small, to build the tests with: nothing in it is more than the standard asks.
#pragma once

namespace ara::core {

enum class Byte : unsigned char {};

}  // namespace ara::core
