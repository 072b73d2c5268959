/*
 * What the searches of bech32.hpp are given, memory and rooms for texts, and the lists of what they find, which are
 * views of a room. C++17, header only.
 *
 * Nothing here allocates or throws.
 */
#ifndef BECH32_ROOMS_HPP
#define BECH32_ROOMS_HPP

#include "bech32.h"
#include "bech32_views.hpp"

namespace bech32_proved {

/* Memory that a search may use. */
using Memory = LentMemory<bech32_memory>;

/* What a search of near texts is given: memory, and where the texts are put. */
struct SearchSpace {
    Memory& memory;
    std::uint8_t* texts;
    std::size_t texts_room;
};

/* The same in place. Where it does not suffice, the refusal is 91 or 92. */
template <std::size_t MemorySize, std::size_t TextsSize>
class SearchRoom {
public:
    SearchRoom() noexcept : memory_(bytes_, MemorySize) {}
    operator SearchSpace() noexcept { return {memory_, texts_, TextsSize}; }

private:
    alignas(16) std::uint8_t bytes_[MemorySize];
    std::uint8_t texts_[TextsSize];
    Memory memory_;
};

/* For texts of at most MaxText characters of which nothing is known to be wrong. */
template <std::size_t MaxText = BECH32_MAX_SEGWIT_TEXT>
using NearestRoom = SearchRoom<BECH32_NEAREST_PLAIN_MEMORY(MaxText), BECH32_NEAREST_PLAIN_TEXTS(MaxText) * MaxText>;

/* For two errors with up to two erasures in up to 90 characters, two with one in more, one with three. Of other
 * searches bech32.h says what suffices. */
template <std::size_t MaxText = BECH32_MAX_SEGWIT_TEXT>
using FewNearestRoom = SearchRoom<BECH32_NEAREST_FEW_MEMORY(MaxText), BECH32_NEAREST_FEW_TEXTS(MaxText) * MaxText>;

template <std::size_t MaxText = BECH32_MAX_LIQUID_TEXT>
using LiquidNearestRoom = SearchRoom<BECH32_LIQUID_NEAREST_MEMORY(MaxText), 8 * MaxText>;

/* Texts of one length, in lower case: views of the room of the search. */
class Texts {
public:
    using value_type = std::string_view;
    using iterator = detail::Steps<Texts>;

    Texts(const std::uint8_t* texts, std::size_t each, std::size_t count) noexcept
        : texts_(texts), each_(each), count_(count) {}

    std::size_t size() const noexcept { return count_; }
    bool empty() const noexcept { return count_ == 0; }
    iterator begin() const noexcept { return {*this, 0}; }
    iterator end() const noexcept { return {*this, count_}; }
    std::string_view operator[](std::size_t index) const noexcept {
        return {static_cast<const char*>(static_cast<const void*>(texts_ + index * each_)), each_};
    }

private:
    const std::uint8_t* texts_;
    std::size_t each_, count_;
};

/* What is done to a mistyped text to make another of it. */
enum class Kind : std::uint8_t {
    unchanged = BECH32_UNCHANGED, /* nothing */
    swapped = BECH32_SWAPPED,     /* two neighbours are swapped */
    left_out = BECH32_LEFT_OUT,   /* a character is left out */
    put_in = BECH32_PUT_IN,       /* a character is put in */
    replaced = BECH32_REPLACED,   /* characters are replaced by others (in a descriptor, one) */
};

/*
 * A text, in lower case where it is no descriptor; what was done to make it; and where: the first of two
 * that are swapped, and of those that are replaced; of one that is put in, its place in this text.
 */
struct Edited {
    std::string_view text;
    Kind kind;
    std::size_t place;
};

/* What a search of edits is given: memory, and where what it finds is put, at most `most` of all. */
struct EditsSpace {
    Memory& memory;
    std::uint8_t* kinds; /* none where two characters are changed */
    std::size_t* places; /* two for each text made of a descriptor, one else */
    std::size_t most;
    std::uint8_t* texts;
    std::size_t texts_room;
};

/* The same in place. Where it does not suffice, the refusal is 91 or 92. */
template <std::size_t MemorySize, std::size_t TextSize, std::size_t Most>
class EditsRoom {
public:
    EditsRoom() noexcept : memory_(bytes_, MemorySize) {}
    operator EditsSpace() noexcept { return {memory_, kinds_, places_, Most, texts_, sizeof texts_}; }

private:
    alignas(16) std::uint8_t bytes_[MemorySize];
    std::size_t places_[2 * Most];
    std::uint8_t kinds_[Most], texts_[Most * TextSize];
    Memory memory_;
};

/* For texts of at most MaxText characters, and at most Most edits of each. */
template <std::size_t MaxText = BECH32_MAX_SEGWIT_TEXT, std::size_t Most = BECH32_NEAR_EDITS>
using NearEditsRoom = EditsRoom<BECH32_NEAR_EDITS_MEMORY(MaxText), MaxText + 1, Most>;

template <std::size_t MaxText, std::size_t Most = BECH32_NEAR_EDITS>
using MendRoom = EditsRoom<BECH32_DESCRIPTOR_MEND_MEMORY(MaxText), MaxText + 1, Most>;

template <std::size_t MaxText, std::size_t Most = BECH32_NEAR_EDITS>
using MendTwoRoom = EditsRoom<BECH32_DESCRIPTOR_TWO_MEMORY(MaxText), MaxText, Most>;

using SuggestRoom = EditsRoom<BECH32_SUGGEST_MEMORY, BECH32_MAX_SEGWIT_TEXT, BECH32_SUGGESTIONS>;

/* Texts that edits make: views of the room of the search. */
class Edits {
public:
    using value_type = Edited;
    using iterator = detail::Walk<Edits>;

    /* How places stand in a room: from the end, from the front, or in pairs from the front. */
    enum class Places { from_the_end, from_the_front, in_pairs };

    Edits(const EditsSpace& room, std::size_t before, std::size_t count, Places places) noexcept
        : kinds_(room.kinds), places_(room.places), texts_(room.texts), before_(before), count_(count), as_(places) {}

    std::size_t size() const noexcept { return count_; }
    bool empty() const noexcept { return count_ == 0; }
    iterator begin() const noexcept { return {*this, 0}; }
    iterator end() const noexcept { return {*this, count_}; }

    /* The item at an index, whose text begins at an offset. */
    Edited item(std::size_t index, std::size_t offset) const noexcept {
        const auto kind = static_cast<Kind>(kinds_[index]);
        const std::size_t size = before_ + (kind == Kind::put_in) - (kind == Kind::left_out);
        const std::string_view text(static_cast<const char*>(static_cast<const void*>(texts_ + offset)), size);
        if (as_ == Places::in_pairs) {
            return {text, kind, places_[2 * index]};
        }
        if (as_ == Places::from_the_front) {
            return {text, kind, places_[index]};
        }
        const std::size_t last = (kind == Kind::put_in ? size : before_) - 1;
        return {text, kind, last - places_[index] - (kind == Kind::swapped)};
    }

private:
    const std::uint8_t* kinds_;
    const std::size_t* places_;
    const std::uint8_t* texts_;
    std::size_t before_, count_;
    Places as_;
};

}  // namespace bech32_proved

#endif
