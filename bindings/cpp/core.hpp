/*
 * The functions of a node's src/bech32.h (those of Bitcoin Core: namespace, names and types), over bech32.hpp: put these
 * two files in the place of its own, and its addresses are read and written by the proved library. Values are elements,
 * from 0 to 31 each. Written from that interface; no line of it is copied.
 */
#ifndef BECH32_CORE_HPP
#define BECH32_CORE_HPP

#include <cstdint>
#include <string>
#include <utility>
#include <vector>

namespace bech32 {

enum class Encoding { INVALID, BECH32, BECH32M };

/* The most characters of a text. */
enum CharLimit : std::size_t { BECH32 = 90 };

/* The text of a part and values, in lower case. Of a part or values that no text has, or Encoding::INVALID, it is empty. */
std::string Encode(Encoding encoding, const std::string& hrp, const std::vector<std::uint8_t>& values);

struct DecodeResult {
    Encoding encoding = Encoding::INVALID;
    std::string hrp; /* in lower case */
    std::vector<std::uint8_t> data;
};

/* What a text says, by the checksum that accepts it, or nothing with Encoding::INVALID. */
DecodeResult Decode(const std::string& str, CharLimit limit = CharLimit::BECH32);

/*
 * Why a string is refused, in the node's words, and the places of the characters at fault: all that may not be there or have
 * the wrong case, the separator, or the first character outside the alphabet. With a wrong checksum, the one or two data
 * characters whose change makes it right, by the checksum that needs fewer; none where there are none. Both are empty for a
 * string with a right checksum.
 */
std::pair<std::string, std::vector<int>> LocateErrors(const std::string& str, CharLimit limit = CharLimit::BECH32);

}  // namespace bech32

#endif
