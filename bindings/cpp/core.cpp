#include "core.hpp"

#include "bech32.hpp"

#include <string_view>

namespace bech32 {

static_assert(BECH32 == BECH32_MAX_SEGWIT_TEXT, "the most characters of a text are those of the header");

namespace {

using bech32_proved::Checksum;

std::string lowered(std::string_view text) {
    std::string made(text);
    for (char& it : made) {
        it = bech32_proved::detail::lower(it);
    }
    return made;
}

const std::pair<Encoding, Checksum> known[] = {
    {Encoding::BECH32M, Checksum::bech32m},
    {Encoding::BECH32, Checksum::bech32},
};

constexpr std::size_t checksum_length = 6;

/* The places from one to before another. */
std::vector<int> from(std::size_t first, std::size_t end) {
    std::vector<int> places;
    for (std::size_t place = first; place < end; ++place) {
        places.push_back(static_cast<int>(place));
    }
    return places;
}

/* The places of characters outside 33 to 126, and of letters in another case than the first letter. */
std::vector<int> bad_or_mixed(std::string_view str) {
    std::vector<int> places;
    bool has_lower = false;
    bool has_upper = false;
    for (std::size_t place = 0; place < str.size(); ++place) {
        const char it = str[place];
        const bool is_lower = it >= 'a' && it <= 'z';
        const bool is_upper = it >= 'A' && it <= 'Z';
        if ((is_lower && has_upper) || (is_upper && has_lower) || it < 33 || it > 126) {
            places.push_back(static_cast<int>(place));
        }
        has_lower = has_lower || (is_lower && !has_upper);
        has_upper = has_upper || (is_upper && !has_lower);
    }
    return places;
}

bool is_element(char it) {
    return std::string_view(BECH32_ALPHABET).find(bech32_proved::detail::lower(it)) != std::string_view::npos;
}

/* Where two strings of one length differ, case aside. */
std::vector<int> differences(std::string_view one, std::string_view other) {
    std::vector<int> places;
    for (std::size_t place = 0; place < one.size(); ++place) {
        if (bech32_proved::detail::lower(one[place]) != bech32_proved::detail::lower(other[place])) {
            places.push_back(static_cast<int>(place));
        }
    }
    return places;
}

/* The places of at most two characters whose change makes this checksum right; none where there are none. Within the
 * limit at most one string is that near. */
std::vector<int> wrong_characters(Checksum checksum, std::string_view str) {
    bech32_proved::NearestRoom<CharLimit::BECH32> room;
    const auto near = bech32_proved::nearest(checksum, str, room);
    return near && near->size() > 0 ? differences(str, *near->begin()) : std::vector<int>();
}

/* Tries both checksums, Bech32 first, and keeps the answer with fewer places. Nothing is wrong if one of them is right. */
std::pair<std::string, std::vector<int>> wrong_checksum(std::string_view str) {
    const std::pair<const char*, Checksum> both[] = {
        {"Invalid Bech32 checksum", Checksum::bech32},
        {"Invalid Bech32m checksum", Checksum::bech32m},
    };
    std::pair<std::string, std::vector<int>> found{"Invalid checksum", {}};
    for (const auto& [sentence, checksum] : both) {
        if (bech32_proved::check(checksum, str)) {
            return {};
        }
        auto places = wrong_characters(checksum, str);
        if (!places.empty() && (found.second.empty() || places.size() < found.second.size())) {
            found = {sentence, std::move(places)};
        }
    }
    return found;
}

}  // namespace

std::string Encode(Encoding encoding, const std::string& hrp, const std::vector<std::uint8_t>& values) {
    for (const auto& [name, checksum] : known) {
        if (name == encoding) {
            const auto text = bech32_proved::encode_elements(checksum, hrp, values);
            return text ? std::string(text->view()) : std::string();
        }
    }
    return {};
}

DecodeResult Decode(const std::string& str, CharLimit limit) {
    for (const auto& [name, checksum] : known) {
        const auto read = bech32_proved::decode_elements(checksum, str);
        if (read && str.size() <= limit) {
            return {name, lowered(read->hrp), {read->elements.begin(), read->elements.end()}};
        }
    }
    return {};
}

std::pair<std::string, std::vector<int>> LocateErrors(const std::string& str, CharLimit limit) {
    if (str.size() > limit) {
        return {"Bech32 string too long", from(limit, str.size())};
    }
    if (auto bad = bad_or_mixed(str); !bad.empty()) {
        return {"Invalid character or mixed case", std::move(bad)};
    }
    const auto separator = str.rfind('1');
    if (separator == std::string::npos) {
        return {"Missing separator", {}};
    }
    if (separator == 0 || separator + checksum_length >= str.size()) {
        return {"Invalid separator position", {static_cast<int>(separator)}};
    }
    for (std::size_t place = separator + 1; place < str.size(); ++place) {
        if (!is_element(str[place])) {
            return {"Invalid Base 32 character", {static_cast<int>(place)}};
        }
    }
    return wrong_checksum(str);
}

}  // namespace bech32
