/* A node's own use of core.hpp: addresses by way of Decode and Encode, and what is refused. */
#include "core.hpp"

#include <cstdio>
#include <cstdlib>

namespace {

void expect(bool holds, const char* what) {
    if (!holds) {
        std::fprintf(stderr, "core_test: %s\n", what);
        std::exit(1);
    }
}

/* A string that the node's own test of LocateErrors refuses, with its sentence and places. */
struct Located {
    const char* text;
    const char* sentence;
    std::vector<int> places;
};

void locates_as_the_node_does() {
    const Located known[] = {
        {" 1nwldj5", "Invalid character or mixed case", {0}},
        {"\x7f" "1axkwrx", "Invalid character or mixed case", {0}},
        {"\x80" "1eym55h", "Invalid character or mixed case", {0}},
        {"an84characterslonghumanreadablepartthatcontainsthetheexcludedcharactersbioandnumber11d6pts4",
         "Bech32 string too long", {90}},
        {"pzry9x0s0muk", "Missing separator", {}},
        {"1pzry9x0s0muk", "Invalid separator position", {0}},
        {"x1b4n0q5v", "Invalid Base 32 character", {2}},
        {"li1dgmt3", "Invalid separator position", {2}},
        {"de1lg7wt\xff", "Invalid character or mixed case", {8}},
        {"A1G7SGD8", "Invalid checksum", {}},
        {"10a06t8", "Invalid separator position", {0}},
        {"1qzzfhee", "Invalid separator position", {0}},
        {"a12UEL5L", "Invalid character or mixed case", {3, 4, 5, 7}},
        {"A12uEL5L", "Invalid character or mixed case", {3}},
        {"abcdef1qpzrz9x8gf2tvdw0s3jn54khce6mua7lmqqqxw", "Invalid Bech32 checksum", {11}},
        {"test1zg69w7y6hn0aqy352euf40x77qddq3dc", "Invalid Bech32 checksum", {9, 16}},
    };
    for (const auto& [text, sentence, places] : known) {
        const auto found = bech32::LocateErrors(text);
        expect(found.first == sentence, text);
        expect(found.second == places, text);
    }
}

}  // namespace

int main() {
    // Valid texts of BIP-173 and BIP-350 are read, and written again in lower case.
    const std::pair<const char*, bech32::Encoding> valid[] = {
        {"A12UEL5L", bech32::Encoding::BECH32},
        {"abcdef1qpzry9x8gf2tvdw0s3jn54khce6mua7lmqqqxw", bech32::Encoding::BECH32},
        {"split1checkupstagehandshakeupstreamerranterredcaperred2y9e3w", bech32::Encoding::BECH32},
        {"A1LQFN3A", bech32::Encoding::BECH32M},
        {"abcdef1l7aum6echk45nj3s0wdvt2fg8x9yrzpqzd3ryx", bech32::Encoding::BECH32M},
        {"bc1pw508d6qejxtdg4y5r3zarvary0c5xw7kw508d6qejxtdg4y5r3zarvary0c5xw7kt5nd6y", bech32::Encoding::BECH32M},
    };
    for (const auto& [text, encoding] : valid) {
        const auto read = bech32::Decode(text);
        expect(read.encoding == encoding, "a valid text is read by its checksum");
        const std::string made = bech32::Encode(read.encoding, read.hrp, read.data);
        std::string lower = text;
        for (char& it : lower) {
            it = it >= 'A' && it <= 'Z' ? static_cast<char>(it - 'A' + 'a') : it;
        }
        expect(made == lower, "what was read is written again");
        expect(bech32::LocateErrors(text).first.empty(), "nothing is at fault in a valid text");
    }
    // Invalid texts of the same standards.
    for (const char* text : {"\x20" "1nwldj5", "an84characterslonghumanreadablepartthatcontainsthenumber1andtheexcludedcharactersbio1569pvx",
                             "pzry9x0s0muk", "1pzry9x0s0muk", "x1b4n0q5v", "li1dgmt3", "A1G7SGD8", "10a06t8", "1qzzfhee",
                             "a12UEL5L", "A12uEL5L", "qyrz8wqd2c9m", "M1VUXWEZ", "16plkw9", "1p2gdwpf", ""}) {
        expect(bech32::Decode(text).encoding == bech32::Encoding::INVALID, "an invalid text is refused");
        expect(!bech32::LocateErrors(text).first.empty(), "an invalid text has a fault");
    }
    const auto fault = bech32::LocateErrors("a12uel5q");
    expect(fault.second == std::vector<int>{7}, "a wrong character is found");
    locates_as_the_node_does();
    expect(bech32::Encode(bech32::Encoding::BECH32, "", {}).empty(), "no text has an empty part");
    expect(bech32::Encode(bech32::Encoding::BECH32, "a", {32}).empty(), "no text has an element of 32");
    expect(bech32::Encode(bech32::Encoding::INVALID, "a", {}).empty(), "no text is of no checksum");
    std::puts("core.hpp: texts are read, written and refused as a node expects");
    return 0;
}
