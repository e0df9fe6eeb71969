/// What this library reads of a manifest itself: its version. All else of it is the engine's.
#pragma once

#include <cstdint>
#include <optional>
#include <string>
#include <string_view>

#include "ara/per/detail/text.h"

namespace ara::per::detail {

/// The most bytes of a manifest.
inline constexpr std::size_t kMaxManifestSize = 65'536;

/// The manifest on one line: outside texts a line feed says as much as a space, and none is allowed within one.
[[nodiscard]] inline std::string OnOneLine(std::string text) {
  for (char& c : text) {
    if (c == '\n' || c == '\r') c = ' ';
  }
  return text;
}

/// The number that stands as `"version"` at the top of a manifest, and nothing where none is found so: the engine then
/// says what is wrong with it.
[[nodiscard]] inline std::optional<std::uint32_t> ManifestVersion(std::string_view manifest) noexcept {
  std::optional<std::uint32_t> version;
  std::string_view text;  // the last text at the top
  int depth = 0;
  for (std::size_t place = 0; place < manifest.size(); ++place) {
    const char c = manifest[place];
    if (c == '"') {
      const std::size_t begin = ++place;
      while (place < manifest.size() && manifest[place] != '"') place += manifest[place] == '\\' ? 2U : 1U;
      if (place >= manifest.size()) return std::nullopt;
      text = manifest.substr(begin, place - begin);
    } else if (c == '{' || c == '[') {
      ++depth;
    } else if (c == '}' || c == ']') {
      --depth;
    } else if (c == ':' && depth == 1 && text == "version") {
      const std::size_t begin = manifest.find_first_not_of(" \t\n\r", place + 1);
      std::uint32_t number{};
      if (begin == std::string_view::npos || !Cursor{manifest.substr(begin)}.TakeNumber(number)) return std::nullopt;
      version = number;
    }
  }
  return version;
}

}  // namespace ara::per::detail
