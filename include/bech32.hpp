/*
 * Bech32 (BIP-173) and Bech32m (BIP-350) in C++17: texts and segwit addresses, written, read and mended;
 * confidential addresses of Liquid; checksums of output descriptors (BIP-380). Header only, over bech32.h,
 * and so over either library: the static one, or the C file.
 *
 *     #include "bech32.hpp"
 *
 *     auto address = bech32_proved::segwit::decode("BC1QW508D6QEJXTDG4Y5R3ZARVARY0C5XW7KV8F3T4");
 *     if (address) {
 *         use(address->hrp.view(), address->version, address->program);
 *     } else {
 *         show(address.error().message().view(), address.error().place());
 *     }
 *
 * No function throws or allocates. What is returned is held in place; what a search needs stands in a room
 * that the caller makes (NearestRoom and the others), and what it lists are views of that room: they hold
 * until the room goes or is used again. Texts are std::string_view: they need not end in a zero byte.
 *
 * A place is that of a character, counted in bytes from 0 at the front. People count from 1.
 *
 * The functions of the library are proved (bech32.h says what); this header is tested.
 */
#ifndef BECH32_HPP
#define BECH32_HPP

#include "bech32.h"
#include "bech32_rooms.hpp"
#include "bech32_views.hpp"

namespace bech32_proved {

/* A checksum; the long ones are for texts of up to BECH32_MAX_LONG_TEXT characters, and mend none. */
enum class Checksum : std::uint32_t {
    bech32 = BECH32_BECH32,
    bech32m = BECH32_BECH32M,
    long_bech32 = BECH32_LONG_BECH32,
    long_bech32m = BECH32_LONG_BECH32M,
};

/* Why something is refused. */
class Refusal {
public:
    constexpr Refusal() noexcept = default;
    constexpr explicit Refusal(std::uint32_t number) noexcept : number_(number) {}

    /* Its number in bech32.h: BECH32_WRONG_CHECKSUM and the others. */
    constexpr std::uint32_t number() const noexcept { return number_; }

    /* Where the character at fault begins, if a single one is. */
    constexpr std::optional<std::size_t> place() const noexcept { return place_; }

    /* With BECH32_NO_ROOM, how many texts there are in all, if that is known. */
    constexpr std::optional<std::size_t> count() const noexcept { return count_; }

    /* Its sentence, in English, without a full stop. */
    Text<BECH32_MAX_MESSAGE> message() const noexcept {
        Text<BECH32_MAX_MESSAGE> said;
        std::size_t size = 0;
        bech32_message(number_, said.data(), said.capacity(), &size);
        said.resize(size);
        return said;
    }

    constexpr Refusal at(std::optional<std::size_t> place) const noexcept {
        Refusal there = *this;
        there.place_ = place;
        return there;
    }
    constexpr Refusal of(std::size_t count) const noexcept {
        Refusal there = *this;
        there.count_ = count;
        return there;
    }

private:
    std::uint32_t number_ = BECH32_OK;
    std::optional<std::size_t> place_, count_;
};

template <class T>
using Outcome = Result<T, Refusal>;

/* The version of the library that is linked: BECH32_VERSION_NUMBER if it is that of the header. */
inline std::uint32_t version() noexcept { return bech32_version(); }

namespace detail {

inline std::uint32_t number(Checksum checksum) noexcept { return static_cast<std::uint32_t>(checksum); }

inline const std::uint8_t* at(std::string_view text) noexcept { return octets(text.data()); }

/* Whether a single character is at fault, so that bech32_fault says which. */
inline bool has_place(std::uint32_t refused) noexcept {
    return refused == BECH32_HRP_NOT_ASCII || refused == BECH32_HRP_INVALID ||
           refused == BECH32_INVALID_CHARACTER || refused == BECH32_MIXED_CASE;
}

/* The refusal of a text that was read, with the place of the character at fault. */
inline Refusal refused_text(std::uint32_t refused, std::string_view text) noexcept {
    std::size_t place = 0;
    if (has_place(refused) && bech32_fault(BECH32_BECH32, at(text), text.size(), &place) == refused) {
        return Refusal(refused).at(place);
    }
    return Refusal(refused);
}

/* What a call puts into an output, or its refusal. */
template <class Output, class Call>
Outcome<Output> written(Call call) noexcept {
    Output output;
    std::size_t size = 0;
    const std::uint32_t refused = call(output.data(), output.capacity(), &size);
    if (refused != BECH32_OK) {
        return Refusal(refused);
    }
    output.resize(size);
    return output;
}

}  // namespace detail

/*
 * Encodes bytes under a human-readable part, in lower case. Room is the longest text: with a long checksum
 * BECH32_MAX_LONG_TEXT is always enough.
 *
 * Refusals, the first that applies: 2, 11 to 15, 51, 92.
 */
template <std::size_t Room = BECH32_MAX_TEXT>
Outcome<Text<Room>> encode(Checksum checksum, std::string_view hrp, Octets data) noexcept {
    return detail::written<Text<Room>>([&](std::uint8_t* text, std::size_t room, std::size_t* size) {
        return bech32_encode(detail::number(checksum), detail::at(hrp), hrp.size(), data.data(), data.size(), text,
                             room, size);
    });
}

/*
 * Encodes elements, from 0 to 31 each, under a human-readable part, in lower case.
 *
 * Refusals, the first that applies: 2, 11 to 15, 51, 67 (with the place of the element), 92.
 */
template <std::size_t Room = BECH32_MAX_TEXT>
Outcome<Text<Room>> encode_elements(Checksum checksum, std::string_view hrp, Octets elements) noexcept {
    std::size_t place = 0;
    auto text = detail::written<Text<Room>>([&](std::uint8_t* to, std::size_t room, std::size_t* size) {
        return bech32_encode_elements(detail::number(checksum), detail::at(hrp), hrp.size(), elements.data(),
                                      elements.size(), &place, to, room, size);
    });
    if (!text && text.error().number() == BECH32_BAD_ELEMENT) {
        return text.error().at(place);
    }
    return text;
}

/* What a text says: its human-readable part, in the case of the text, and its bytes. */
template <std::size_t Room = BECH32_MAX_BYTES>
struct Decoded {
    Text<BECH32_MAX_HRP> hrp;
    Bytes<Room> data;
};

/* The same with the elements of the data part, without those of the checksum. */
template <std::size_t Room = BECH32_MAX_ELEMENTS>
struct Elements {
    Text<BECH32_MAX_HRP> hrp;
    Bytes<Room> elements;
};

namespace detail {

/* What a call reads of a text: a part and bytes, or its refusal. */
template <class Output, std::size_t Room, class Call>
Outcome<Output> read(std::string_view text, Bytes<Room> Output::*bytes, Call call) noexcept {
    Output output;
    std::size_t hrp_size = 0, size = 0;
    const std::uint32_t refused = call(output.hrp.data(), output.hrp.capacity(), &hrp_size, (output.*bytes).data(),
                                       (output.*bytes).capacity(), &size);
    if (refused != BECH32_OK) {
        return refused_text(refused, text);
    }
    output.hrp.resize(hrp_size);
    (output.*bytes).resize(size);
    return output;
}

}  // namespace detail

/*
 * Decodes a text that Bech32m or Bech32 accepts; bits behind the last whole byte are dropped. Decode an
 * address by segwit::decode, and what identifies something by decode_strict.
 *
 * Refusals, the first that applies: 2; 21, 22, 23, 11 to 15; 31, 32, 33.
 */
inline Outcome<Decoded<>> decode(std::string_view text) noexcept {
    return detail::read(text, &Decoded<>::data, [&](auto... outs) {
        return bech32_decode(detail::at(text), text.size(), outs...);
    });
}

/*
 * Decodes a text that the checksum accepts, and refuses bits behind the last whole byte that are more than
 * four, or not all zero: the text is then, in its case, the only one of its part and bytes. Room is of the
 * bytes: with a long checksum BECH32_MAX_LONG_BYTES is always enough.
 *
 * Refusals, the first that applies: 2; 21, 22, 23, 11 to 15; 31, 32, 33; 44, 45; 92.
 */
template <std::size_t Room = BECH32_MAX_BYTES>
Outcome<Decoded<Room>> decode_strict(Checksum checksum, std::string_view text) noexcept {
    return detail::read(text, &Decoded<Room>::data, [&](auto... outs) {
        return bech32_decode_strict(detail::number(checksum), detail::at(text), text.size(), outs...);
    });
}

/*
 * Decodes a text that the checksum accepts to elements: what is not bytes alone, as addresses of silent
 * payments (BIP-352) and invoices (BOLT 11). Room is of the elements: with a long checksum
 * BECH32_MAX_LONG_ELEMENTS is always enough.
 *
 * Refusals, the first that applies: 2; 21, 22, 23, 11 to 15; 31, 32, 33; 92.
 */
template <std::size_t Room = BECH32_MAX_ELEMENTS>
Outcome<Elements<Room>> decode_elements(Checksum checksum, std::string_view text) noexcept {
    return detail::read(text, &Elements<Room>::elements, [&](auto... outs) {
        return bech32_decode_elements(detail::number(checksum), detail::at(text), text.size(), outs...);
    });
}

/* The parts of a text, as views of it: the human-readable part, and the data part without the checksum. */
struct Parts {
    std::string_view hrp, data_part;
};

/*
 * Tests whether the checksum accepts a text.
 *
 * Refusals, the first that applies: 2; 21, 22, 23, 11 to 15; 31, 32, 33.
 */
inline Outcome<Parts> check(Checksum checksum, std::string_view text) noexcept {
    std::size_t hrp = 0, data = 0;
    const std::uint32_t refused =
        bech32_check(detail::number(checksum), detail::at(text), text.size(), &hrp, &data);
    if (refused != BECH32_OK) {
        return detail::refused_text(refused, text);
    }
    return Parts{text.substr(0, hrp), text.substr(hrp + 1, data)};
}

/* Why a checksum does not accept a text, and where; nothing if it does. */
inline std::optional<Refusal> fault(Checksum checksum, std::string_view text) noexcept {
    const auto parts = check(checksum, text);
    return parts ? std::nullopt : std::optional<Refusal>(parts.error());
}

/*
 * A character of a mistyped text, and the one that is in its place in the mended one, in lower case where they
 * are no descriptors.
 */
struct Change {
    std::size_t place;
    char from, to;
};

inline bool operator==(const Change& one, const Change& other) noexcept {
    return one.place == other.place && one.from == other.from && one.to == other.to;
}

/* How a mistyped text is mended. */
class Correction {
public:
    /* The mended text, in lower case. */
    Text<BECH32_MAX_TEXT> text;

    /* What is changed, in rising places; the erasures are among them, also where their character stays. */
    const Change* begin() const noexcept { return changes_; }
    const Change* end() const noexcept { return changes_ + size_; }
    std::size_t size() const noexcept { return size_; }
    const Change& operator[](std::size_t index) const noexcept { return changes_[index]; }

    void add(Change change) noexcept {
        std::size_t at = size_++;
        for (; at > 0 && changes_[at - 1].place > change.place; at--) {
            changes_[at] = changes_[at - 1];
        }
        changes_[at] = change;
    }

private:
    std::size_t size_ = 0;
    Change changes_[BECH32_MAX_LISTED];
};

namespace detail {

inline char lower(char letter) noexcept {
    return letter >= 'A' && letter <= 'Z' ? static_cast<char>(letter - 'A' + 'a') : letter;
}

/* At most three places, or more that no correction has, as locations: 0 is that of the last character. */
class Locations {
public:
    Locations(std::string_view text, Numbers places, std::size_t most) noexcept {
        for (const std::size_t place : places) {
            // A place behind the text is as a location in no data part.
            const std::size_t location = place < text.size() ? text.size() - 1 - place : place;
            if (!has(location) && size_ <= most) {
                items_[size_++] = location;
            }
        }
    }
    const std::size_t* data() const noexcept { return items_; }
    std::size_t size() const noexcept { return size_; }

private:
    bool has(std::size_t location) const noexcept {
        bool found = false;
        for (std::size_t at = 0; at < size_; at++) {
            found = found || items_[at] == location;
        }
        return found;
    }
    std::size_t size_ = 0;
    std::size_t items_[8] = {};
};

/* The most erasures that are listed, of Bech32 and Bech32m, and of Blech32; one more is none too few. */
inline constexpr std::size_t most_erasures = 3, most_liquid_erasures = 6;

}  // namespace detail

/*
 * Mends a mistyped text by Checksum::bech32 or bech32m: the one correction of the data part in which twice
 * the number of errors outside the erasures, plus the number of erasures, is at most three. `erasures` are
 * places of characters that are known to be wrong. It may not be what was meant: show it, and ask.
 *
 * Refusals, the first that applies: 4; 2; 21, 22, 23, 11 to 15; 31, 32; 34.
 */
inline Outcome<Correction> correct(Checksum checksum, std::string_view text, Numbers erasures = {}) noexcept {
    const detail::Locations known(text, erasures, detail::most_erasures);
    Correction made;
    std::size_t locations[BECH32_MAX_LISTED], count = 0, size = 0;
    std::uint8_t values[BECH32_MAX_LISTED];
    const std::uint32_t refused =
        bech32_correct(detail::number(checksum), detail::at(text), text.size(), known.data(), known.size(), locations,
                       BECH32_MAX_LISTED, values, BECH32_MAX_LISTED, &count, made.text.data(), made.text.capacity(),
                       &size);
    if (refused != BECH32_OK) {
        return detail::refused_text(refused, text);
    }
    made.text.resize(size);
    for (std::size_t at = 0; at < count; at++) {
        const std::size_t place = size - 1 - locations[at];
        made.add({place, detail::lower(text[place]), made.text.view()[place]});
    }
    return made;
}

namespace detail {

/* The refusal of a search, with the number of all texts where there is no room for them. */
inline Refusal refused_search(std::uint32_t refused, std::string_view text, std::size_t count) noexcept {
    return refused == BECH32_NO_ROOM ? Refusal(refused).of(count) : refused_text(refused, text);
}

}  // namespace detail

/*
 * Lists the texts near to a mistyped one: all that Checksum::bech32 or bech32m accepts and that differ from
 * it in at most `errors` characters of the data part, 0 to 2, outside `erasures`, places of at most three
 * characters that are known to be wrong. bech32.h says their order, how many there are, and how long it takes.
 *
 * Refusals, the first that applies: 4; 2; 21, 22, 23, 11 to 15; 31, 32; 92; and 91 in place of 92.
 */
inline Outcome<Texts> nearest(Checksum checksum, std::string_view text, SearchSpace room, Numbers erasures = {},
                              std::size_t errors = BECH32_MAX_ERRORS) noexcept {
    const detail::Locations known(text, erasures, detail::most_erasures);
    std::size_t count = 0;
    const std::uint32_t refused =
        bech32_nearest(detail::number(checksum), detail::at(text), text.size(), known.data(), known.size(), errors,
                       room.memory.lent(), room.texts, room.texts_room, &count);
    if (refused != BECH32_OK) {
        return detail::refused_search(refused, text, count);
    }
    return Texts(room.texts, text.size(), count);
}

/*
 * Lists the other texts that Checksum::bech32 or bech32m accepts and that one edit makes of a text: two
 * neighbours of the data part are swapped, a character is left out, or one is put in. They may be none of
 * what was meant: show them, and ask. bech32.h says their order.
 *
 * Refusals, the first that applies: 4; 2; 21, 22, 23, 11 to 15; 92; and 91 in place of 92.
 */
inline Outcome<Edits> near_edits(Checksum checksum, std::string_view text, EditsSpace room) noexcept {
    std::size_t count = 0;
    const std::uint32_t refused =
        bech32_near_edits(detail::number(checksum), detail::at(text), text.size(), room.memory.lent(), room.kinds,
                          room.most, room.places, room.most, room.texts, room.texts_room, &count);
    if (refused != BECH32_OK) {
        return detail::refused_search(refused, text, count);
    }
    return Edits(room, text.size(), count, Edits::Places::from_the_end);
}

/* Segwit addresses (BIP-173, BIP-350). */
namespace segwit {

struct Address {
    Text<BECH32_MAX_HRP> hrp; /* in the case of the text */
    std::uint32_t version = 0;
    Bytes<BECH32_MAX_SEGWIT_PROGRAM> program;
};

/*
 * Encodes an address, in lower case: version 0 by Bech32, 1 to 16 by Bech32m.
 *
 * Refusals, the first that applies: 4 (a version above 31), 2, 11 to 15, 52, 46, 47, 48, 53.
 */
inline Outcome<Text<BECH32_MAX_SEGWIT_TEXT>> encode(std::string_view hrp, std::uint32_t version,
                                                    Octets program) noexcept {
    return detail::written<Text<BECH32_MAX_SEGWIT_TEXT>>([&](auto... outs) {
        return bech32_segwit_encode(detail::at(hrp), hrp.size(), version, program.data(), program.size(), outs...);
    });
}

/*
 * Decodes an address. Any human-readable part is accepted: compare it with that of your network.
 *
 * Refusals, the first that applies: 2; 41; 21, 22, 23, 11 to 15; 42, 43; 32, 33; 42, 44 to 48.
 */
inline Outcome<Address> decode(std::string_view text) noexcept {
    std::uint32_t version = 0;
    auto address = detail::read(
        text, &Address::program,
        [&](std::uint8_t* hrp, std::size_t hrp_room, std::size_t* hrp_size, std::uint8_t* program, std::size_t room,
            std::size_t* size) {
            return bech32_segwit_decode(detail::at(text), text.size(), hrp, hrp_room, hrp_size, &version, program,
                                        room, size);
        });
    if (address) {
        address->version = version;
    }
    return address;
}

/*
 * Did you mean? Lists the addresses of a network, that of `hrp` in either case, that someone may have meant
 * who typed `text`, in which each `?` cannot be read. They are of forms in use (version 0 with 20 or 32 bytes,
 * version 1 with 32), but for the text itself, which is listed if it is an address of the network. Each is a
 * guess: show it, and let people compare it with the source before it is paid to. bech32.h says which texts
 * are tried, and in which order.
 *
 * Refusals, the first that applies: of `hrp` 2, 11 to 15; of `text` 2; 21, 22, 23, 11 to 15; 91.
 */
inline Outcome<Edits> suggest(std::string_view text, std::string_view hrp, EditsSpace room) noexcept {
    std::size_t count = 0;
    const std::uint32_t refused =
        bech32_suggest(detail::at(text), text.size(), detail::at(hrp), hrp.size(), room.memory.lent(), room.kinds,
                       room.most, room.places, room.most, room.texts, room.texts_room, &count);
    if (refused == BECH32_NO_ROOM) {
        return Refusal(refused).of(count);
    }
    if (refused != BECH32_OK) {
        return Refusal(refused);
    }
    return Edits(room, text.size(), count, Edits::Places::from_the_front);
}

}  // namespace segwit

/* Confidential addresses of Liquid, version 0, by Blech32. */
namespace liquid {

struct Address {
    Text<BECH32_MAX_HRP> hrp; /* in the case of the text */
    std::uint32_t version = 0;
    Bytes<BECH32_LIQUID_KEY_LENGTH> key; /* the blinding key; that it is a point of the curve is not tested */
    Bytes<BECH32_MAX_LIQUID_PROGRAM> program;
};

/*
 * Encodes an address, in lower case. A key of another length is refused with 79.
 *
 * Refusals, the first that applies: 79; 4 (a version above 31), 2, 11 to 15, 52, 70, 46, 47, 48.
 */
inline Outcome<Text<BECH32_MAX_LIQUID_TEXT>> encode(std::string_view hrp, std::uint32_t version, Octets key,
                                                    Octets program) noexcept {
    if (key.size() != BECH32_LIQUID_KEY_LENGTH) {
        return Refusal(BECH32_NO_BLINDING_KEY);
    }
    return detail::written<Text<BECH32_MAX_LIQUID_TEXT>>([&](auto... outs) {
        return bech32_liquid_encode(detail::at(hrp), hrp.size(), version, key.data(), program.data(), program.size(),
                                    outs...);
    });
}

/*
 * Decodes an address. Any human-readable part is accepted: compare it with that of your network (`lq`).
 *
 * Refusals, the first that applies: 2; 21, 22, 23, 11 to 15; 42, 43, 70; 31, 32, 33; 42, 44, 45; 79; 46 to 48.
 */
inline Outcome<Address> decode(std::string_view text) noexcept {
    std::uint32_t version = 0;
    Bytes<BECH32_LIQUID_KEY_LENGTH> key;
    auto address = detail::read(
        text, &Address::program,
        [&](std::uint8_t* hrp, std::size_t hrp_room, std::size_t* hrp_size, std::uint8_t* program, std::size_t room,
            std::size_t* size) {
            return bech32_liquid_decode(detail::at(text), text.size(), hrp, hrp_room, hrp_size, &version, key.data(),
                                        program, room, size);
        });
    if (address) {
        key.resize(BECH32_LIQUID_KEY_LENGTH);
        address->version = version;
        address->key = key;
    }
    return address;
}

/*
 * Lists the texts near to a mistyped one, by Blech32, with `errors` from 0 to 3 beside at most six erasures:
 * twice the errors, plus the number of erasures, may be at most seven. Where it is at most six, there is one
 * text at most: so many errors are looked for where they are left out, three without erasures and none beside
 * six.
 *
 * Refusals, the first that applies: 4; 2; 21, 22, 23, 11 to 15; 31, 32; 92; and 91 in place of 92.
 */
inline Outcome<Texts> nearest(std::string_view text, SearchSpace room, Numbers erasures = {},
                              std::optional<std::size_t> errors = std::nullopt) noexcept {
    const detail::Locations known(text, erasures, detail::most_liquid_erasures);
    const std::size_t erased = known.size(), most = detail::most_liquid_erasures;
    std::size_t count = 0;
    const std::uint32_t refused =
        bech32_liquid_nearest(detail::at(text), text.size(), known.data(), erased,
                              errors.value_or(erased < most ? (most - erased) / 2 : 0), room.memory.lent(), room.texts,
                              room.texts_room, &count);
    if (refused != BECH32_OK) {
        return detail::refused_search(refused, text, count);
    }
    return Texts(room.texts, text.size(), count);
}

}  // namespace liquid

/*
 * Output descriptors (BIP-380): their checksums. What a descriptor says is not read. It may hold private
 * keys: the texts and the rooms are yours to wipe (codex32_wipe and codex32_wipe_stack of codex32.h do it).
 */
namespace descriptor {

/*
 * Computes the checksum of a descriptor without one: `text`, `#` and these characters are the descriptor.
 *
 * Refusals: 80, with the place.
 */
inline Outcome<Text<BECH32_DESCRIPTOR_CHECKSUM>> checksum(std::string_view text) noexcept {
    std::size_t place = 0;
    auto made = detail::written<Text<BECH32_DESCRIPTOR_CHECKSUM>>([&](auto... outs) {
        return bech32_descriptor_checksum(detail::at(text), text.size(), outs..., &place);
    });
    if (!made && made.error().number() == BECH32_NOT_IN_DESCRIPTOR) {
        return made.error().at(place);
    }
    return made;
}

/*
 * Tests a descriptor with its checksum, and returns it without, as a view of the text.
 *
 * Refusals, the first that applies: 88; 80, with the place; 33.
 */
inline Outcome<std::string_view> check(std::string_view text) noexcept {
    std::size_t place = 0;
    const std::uint32_t refused = bech32_descriptor_check(detail::at(text), text.size(), &place);
    if (refused == BECH32_NOT_IN_DESCRIPTOR) {
        return Refusal(refused).at(place);
    }
    if (refused != BECH32_OK) {
        return Refusal(refused);
    }
    return text.substr(0, text.size() - BECH32_DESCRIPTOR_CHECKSUM - 1);
}

/*
 * Lists the other texts with a right checksum that one edit makes of a text: a character is changed (unless
 * `changed` is 0), two neighbours are swapped, a character is left out, or one is put in. They may be none of
 * what was meant: compare them with the wallet's addresses.
 *
 * Refusals, the first that applies: 4 (`changed` is above 1); 89; 92; and 91 in place of 92.
 */
inline Outcome<Edits> mend(std::string_view text, EditsSpace room, std::size_t changed = 1) noexcept {
    std::size_t count = 0;
    const std::uint32_t refused =
        bech32_descriptor_mend(detail::at(text), text.size(), changed, room.memory.lent(), room.kinds, room.most,
                               room.places, 2 * room.most, room.texts, room.texts_room, &count);
    if (refused == BECH32_NO_ROOM) {
        return Refusal(refused).of(count);
    }
    if (refused != BECH32_OK) {
        return Refusal(refused);
    }
    return Edits(room, text.size(), count, Edits::Places::in_pairs);
}

/* A text that two changed characters make, and both, the one with the lower place first. */
struct MendedTwice {
    std::string_view text;
    Change first, second;
};

/* Texts that two changed characters make: views of the room of the search, and of the mistyped text. */
class MendedTexts {
public:
    using value_type = MendedTwice;
    using iterator = detail::Steps<MendedTexts>;

    MendedTexts(const EditsSpace& room, std::string_view before, std::size_t count) noexcept
        : texts_(room.texts, before.size(), count), places_(room.places), before_(before) {}

    std::size_t size() const noexcept { return texts_.size(); }
    bool empty() const noexcept { return texts_.empty(); }
    iterator begin() const noexcept { return {*this, 0}; }
    iterator end() const noexcept { return {*this, size()}; }
    MendedTwice operator[](std::size_t index) const noexcept {
        return {texts_[index], change(index, places_[2 * index]), change(index, places_[2 * index + 1])};
    }

private:
    Change change(std::size_t index, std::size_t place) const noexcept {
        return {place, before_[place], texts_[index][place]};
    }

    Texts texts_;
    const std::size_t* places_;
    std::string_view before_;
};

/*
 * Lists the texts with a right checksum that come from a text by two of its characters changed. Either may be
 * in the checksum, or be the `#`. Try `mend` first: where two characters are wrong, it takes about a 15th of the
 * time at 30 characters and a 150th at 1,400, and less memory. A text has at most BECH32_MAX_DESCRIPTOR_TWO characters, so
 * that of 100 that are no mistyped descriptors at most one is expected to be answered with any. bech32.h says their
 * order. They may be none of what was meant: compare them with the wallet's addresses.
 *
 * Refusals, the first that applies: 89; 92; and 91 in place of 92.
 */
inline Outcome<MendedTexts> mend_two(std::string_view text, EditsSpace room) noexcept {
    std::size_t count = 0;
    const std::uint32_t refused =
        bech32_descriptor_mend_two(detail::at(text), text.size(), room.memory.lent(), room.places, 2 * room.most,
                                   room.texts, room.texts_room, &count);
    if (refused != BECH32_OK) {
        return detail::refused_search(refused, text, count);
    }
    return MendedTexts(room, text, count);
}

}  // namespace descriptor

}  // namespace bech32_proved

#endif
