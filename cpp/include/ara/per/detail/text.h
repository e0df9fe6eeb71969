/// The small words of the engine's lines: names, numbers, hexadecimal digits, UTF-8.
#pragma once

#include <charconv>
#include <cstddef>
#include <cstdint>
#include <string>
#include <string_view>
#include <system_error>

namespace ara::per::detail {

/// The text of a view of the platform's kind.
template <class View>
[[nodiscard]] std::string_view AsText(const View& view) noexcept {
  return {view.data(), view.size()};
}

/// Whether this can be the name of a storage, a key or a file.
[[nodiscard]] inline bool IsName(std::string_view text) noexcept {
  if (text.empty() || text.size() > 255) return false;
  for (const char c : text) {
    const bool isLetter = (c >= 'a' && c <= 'z') || (c >= 'A' && c <= 'Z');
    const bool isDigit = c >= '0' && c <= '9';
    if (!isLetter && !isDigit && c != '_' && c != '-' && c != '.' && c != '/') return false;
  }
  return true;
}

/// How many bytes the first character of UTF-8 has, and 0 where there is none.
[[nodiscard]] inline std::size_t Utf8Character(std::string_view text) noexcept {
  const auto byte = [text](std::size_t place) { return static_cast<unsigned char>(text[place]); };
  const unsigned char lead = byte(0);
  if (lead < 0x80) return 1;
  const std::size_t size = lead < 0xc2 ? 0 : lead < 0xe0 ? 2 : lead < 0xf0 ? 3 : lead < 0xf5 ? 4 : 0;
  if (size == 0 || size > text.size()) return 0;
  for (std::size_t place = 1; place < size; ++place) {
    if ((byte(place) & 0xc0) != 0x80) return 0;
  }
  // Neither longer than need be, nor a surrogate, nor above the last character.
  if ((lead == 0xe0 && byte(1) < 0xa0) || (lead == 0xed && byte(1) > 0x9f)) return 0;
  if ((lead == 0xf0 && byte(1) < 0x90) || (lead == 0xf4 && byte(1) > 0x8f)) return 0;
  return size;
}

[[nodiscard]] inline bool IsUtf8(std::string_view text) noexcept {
  while (!text.empty()) {
    const std::size_t size = Utf8Character(text);
    if (size == 0) return false;
    text.remove_prefix(size);
  }
  return true;
}

inline void PutByte(std::string& out, unsigned char byte) {
  constexpr std::string_view digits{"0123456789abcdef"};
  out += digits[byte >> 4U];
  out += digits[byte & 15U];
}

inline void PutHex(std::string& out, const void* data, std::size_t size) {
  const auto* bytes = static_cast<const unsigned char*>(data);
  out.reserve(out.size() + 2 * size);
  for (std::size_t place = 0; place < size; ++place) PutByte(out, bytes[place]);
}

/// What is left of a text that is read from its beginning.
class Cursor final {
 public:
  explicit Cursor(std::string_view text) noexcept : left_{text} {}

  [[nodiscard]] bool IsAtEnd() const noexcept { return left_.empty(); }

  /// Passes this word where it stands next.
  [[nodiscard]] bool Take(std::string_view word) noexcept {
    if (left_.substr(0, word.size()) != word) return false;
    left_.remove_prefix(word.size());
    return true;
  }

  /// Passes all up to the next `end`, which stays, or to the end of the text.
  [[nodiscard]] std::string_view TakeUntil(char end) noexcept {
    const std::string_view word = left_.substr(0, left_.find(end));
    left_.remove_prefix(word.size());
    return word;
  }

  [[nodiscard]] bool TakeCharacter(char& out) noexcept {
    if (left_.empty()) return false;
    out = left_.front();
    left_.remove_prefix(1);
    return true;
  }

  template <class Number>
  [[nodiscard]] bool TakeNumber(Number& out) noexcept {
    const auto [end, fault] = std::from_chars(left_.data(), left_.data() + left_.size(), out);
    if (fault != std::errc{}) return false;
    left_.remove_prefix(static_cast<std::size_t>(end - left_.data()));
    return true;
  }

  /// Passes two hexadecimal digits.
  [[nodiscard]] bool TakeByte(unsigned char& out) noexcept {
    if (left_.size() < 2) return false;
    const int high = Digit(left_[0]);
    const int low = Digit(left_[1]);
    if (high < 0 || low < 0) return false;
    out = static_cast<unsigned char>(16 * high + low);
    left_.remove_prefix(2);
    return true;
  }

  /// How many bytes of two hexadecimal digits each come next.
  [[nodiscard]] std::size_t BytesAhead() const noexcept {
    const std::size_t digits = left_.find_first_not_of("0123456789abcdef");
    return (digits == std::string_view::npos ? left_.size() : digits) / 2;
  }

 private:
  [[nodiscard]] static int Digit(char c) noexcept {
    if (c >= '0' && c <= '9') return c - '0';
    if (c >= 'a' && c <= 'f') return c - 'a' + 10;
    return -1;
  }

  std::string_view left_;
};

}  // namespace ara::per::detail
