/*
 * The commands of b32, c32 and mend by bech32.hpp and codex32.hpp: put beside translator/lines/lines.c and words.c, in
 * place of its other files, they reply to the stored lines of these programs (test compares the replies).
 */
#include <array>
#include <memory>
#include <string>
#include <string_view>
#include <vector>

#include "bech32.hpp"
#include "codex32.hpp"

extern "C" {
#include "lines.h"
}

namespace {

using namespace bech32_proved;

std::string_view view(Word word) {
    return {reinterpret_cast<const char*>(word.bytes), word.length};
}

void put(Out* out, std::string_view text) {
    ::put(out, reinterpret_cast<const uint8_t*>(text.data()), text.size());
}

void put_lowered(Out* out, std::string_view text) {
    ::put_lowered(out, reinterpret_cast<const uint8_t*>(text.data()), text.size());
}

/* Why a line is refused before a function of the library is called. */
struct NotAnswered {
    uint32_t number;
};

Checksum checksum_in(Word word) {
    const uint32_t number = checksum_of(word);
    if (number == 0) {
        throw NotAnswered{NO_COMMAND};
    }
    return static_cast<Checksum>(number);
}

/* The same, with the checksums for long texts. */
Checksum any_checksum_in(Word word) {
    const uint32_t number = any_checksum_of(word);
    if (number == 0) {
        throw NotAnswered{NO_COMMAND};
    }
    return static_cast<Checksum>(number);
}

std::vector<uint8_t> bytes_in(Word word) {
    std::vector<uint8_t> bytes(MOST_BYTES);
    size_t count = 0;
    if (!read_hex(word, bytes.data(), &count)) {
        throw NotAnswered{BAD_HEX};
    }
    bytes.resize(count);
    return bytes;
}

size_t number_in(Word word, size_t most) {
    size_t number = 0;
    if (!read_number(word, most, &number)) {
        throw NotAnswered{BAD_WORD};
    }
    return number;
}

/* Locations count from the end, places from the front. A location that the text has not is a place that it has not. */
std::vector<size_t> places_in(Word word, size_t text_size) {
    std::vector<size_t> places(MOST_LOCATIONS);
    size_t count = 0;
    if (!read_locations(word, places.data(), &count)) {
        throw NotAnswered{BAD_WORD};
    }
    places.resize(count);
    for (size_t& it : places) {
        it = it < text_size ? text_size - 1 - it : it;
    }
    return places;
}

template <class Answered>
uint32_t answered(Answered answer) {
    try {
        return answer();
    } catch (const NotAnswered& refused) {
        return refused.number;
    }
}

/* "ok" and what a result holds, or its refusal. */
template <class Outcome, class Put>
uint32_t said(Out* out, const Outcome& outcome, Put put_value) {
    if (!outcome) {
        return outcome.error().number();
    }
    put_text(out, "ok");
    put_value(*outcome);
    return FINE;
}

template <class Text>
auto as_text(Out* out) {
    return [out](const Text& text) {
        put_text(out, " ");
        put(out, text.view());
    };
}

void put_parts(Out* out, std::string_view hrp, Octets bytes) {
    put_text(out, " ");
    put_lowered(out, hrp);
    put_text(out, " ");
    put_hex(out, bytes.data(), bytes.size());
}

uint32_t encode_line(const Words* words, Out* out) {
    return answered([&] {
        const auto checksum = any_checksum_in(words->word[0]);
        return said(out, encode<BECH32_MAX_LONG_TEXT>(checksum, view(words->word[1]), bytes_in(words->word[2])),
                    as_text<Text<BECH32_MAX_LONG_TEXT>>(out));
    });
}

uint32_t decode_line(const Words* words, Out* out) {
    return said(out, decode(view(words->word[0])), [&](const auto& it) { put_parts(out, it.hrp, it.data); });
}

uint32_t decode_strict_line(const Words* words, Out* out) {
    return answered([&] {
        const auto checksum = any_checksum_in(words->word[0]);
        return said(out, decode_strict<BECH32_MAX_LONG_BYTES>(checksum, view(words->word[1])),
                    [&](const auto& it) { put_parts(out, it.hrp, it.data); });
    });
}

uint32_t decode_elements_line(const Words* words, Out* out) {
    return answered([&] {
        const auto checksum = any_checksum_in(words->word[0]);
        return said(out, decode_elements<BECH32_MAX_LONG_ELEMENTS>(checksum, view(words->word[1])),
                    [&](const auto& it) { put_parts(out, it.hrp, it.elements); });
    });
}

uint32_t encode_elements_line(const Words* words, Out* out) {
    return answered([&] {
        const auto checksum = any_checksum_in(words->word[0]);
        return said(out, encode_elements<BECH32_MAX_LONG_TEXT>(checksum, view(words->word[1]), bytes_in(words->word[2])),
                    as_text<Text<BECH32_MAX_LONG_TEXT>>(out));
    });
}

uint32_t segwit_encode_line(const Words* words, Out* out) {
    return answered([&] {
        const auto version = static_cast<uint32_t>(number_in(words->word[1], 31));
        return said(out, segwit::encode(view(words->word[0]), version, bytes_in(words->word[2])),
                    as_text<Text<BECH32_MAX_SEGWIT_TEXT>>(out));
    });
}

uint32_t segwit_decode_line(const Words* words, Out* out) {
    return said(out, segwit::decode(view(words->word[0])), [&](const auto& it) {
        put_text(out, " ");
        put_lowered(out, it.hrp);
        put_text(out, " ");
        put_number(out, it.version);
        put_text(out, " ");
        put_hex(out, it.program.data(), it.program.size());
    });
}

uint32_t liquid_encode_line(const Words* words, Out* out) {
    return answered([&] {
        const auto version = static_cast<uint32_t>(number_in(words->word[1], 31));
        const auto key = bytes_in(words->word[2]);
        if (key.size() != BECH32_LIQUID_KEY_LENGTH) {
            throw NotAnswered{BAD_HEX};
        }
        return said(out, liquid::encode(view(words->word[0]), version, key, bytes_in(words->word[3])),
                    as_text<Text<BECH32_MAX_LIQUID_TEXT>>(out));
    });
}

uint32_t liquid_decode_line(const Words* words, Out* out) {
    return said(out, liquid::decode(view(words->word[0])), [&](const auto& it) {
        put_text(out, " ");
        put_lowered(out, it.hrp);
        put_text(out, " ");
        put_number(out, it.version);
        put_text(out, " ");
        put_hex(out, it.key.data(), it.key.size());
        put_text(out, " ");
        put_hex(out, it.program.data(), it.program.size());
    });
}

/* The element that is added where a character becomes another. */
char added(const Change& change) {
    const std::string_view alphabet = BECH32_ALPHABET;
    return alphabet[alphabet.find(change.from) ^ alphabet.find(change.to)];
}

void put_change(Out* out, const Change& change, size_t text_size) {
    put_text(out, " ");
    put_number(out, text_size - 1 - change.place);
    const std::array<char, 2> what = {':', added(change)};
    put(out, {what.data(), what.size()});
}

/* The erasures come first, in the order of the line; then the others, as the library lists them: by place, the last first. */
uint32_t correct_line(const Words* words, Out* out) {
    return answered([&]() -> uint32_t {
        const auto checksum = checksum_in(words->word[0]);
        const auto text = view(words->word[1]);
        std::vector<size_t> places;
        if (words->count == 3) {
            places = places_in(words->word[2], text.size());
        }
        const auto made = correct(checksum, text, places);
        if (!made && made.error().number() == BECH32_NO_CORRECTION) {
            put_text(out, "none");
            return FINE;
        }
        if (!made) {
            return made.error().number();
        }
        put_text(out, made->size() == 0 ? "fine" : "ok");
        std::vector<Change> left(made->begin(), made->end());
        for (const size_t place : places) {
            for (size_t at = 0; at < left.size(); at++) {
                if (left[at].place == place) {
                    put_change(out, left[at], text.size());
                    left.erase(left.begin() + static_cast<std::ptrdiff_t>(at));
                    break;
                }
            }
        }
        for (size_t at = left.size(); at > 0; at--) {
            put_change(out, left[at - 1], text.size());
        }
        if (made->size() > 0) {
            put_text(out, " ");
            put(out, made->text.view());
        }
        return FINE;
    });
}

/* The most memory that a search is lent, 16 MiB. A string that needs more (up to 860 MB, see bech32.h) is refused with 91. */
constexpr size_t most_memory = size_t{1} << 24;

/* The most near texts that are listed. If there are more, the reply lists the first ones and ends in ` more`. */
constexpr size_t most_texts = 1000;

/* Memory that is lent, and where results are put: they grow where they do not suffice. */
struct Grown {
    size_t memory_size, most, each;
    std::unique_ptr<uint8_t[]> memory;
    std::vector<uint8_t> texts, kinds;
    std::vector<size_t> places;

    template <class Search>
    auto searched(Search search) {
        for (;;) {
            memory.reset(new uint8_t[memory_size + 15]);
            texts.resize(most * each);
            kinds.resize(most);
            places.resize(2 * most);
            Memory lent(memory.get(), memory_size + 15);
            auto found = search(lent);
            if (found) {
                return found;
            }
            if (found.error().number() == BECH32_NO_ROOM) {
                most = *found.error().count();
            } else if (found.error().number() == BECH32_NO_MEMORY && memory_size < most_memory) {
                memory_size = memory_size < most_memory / 2 ? 2 * memory_size : most_memory;
            } else {
                return found;
            }
        }
    }
    EditsSpace edits(Memory& lent) { return {lent, kinds.data(), places.data(), most, texts.data(), texts.size()}; }
};

size_t measured(std::string_view text) { return text.size() < BECH32_MAX_TEXT ? text.size() : BECH32_MAX_TEXT; }

uint32_t nearest_line(const Words* words, Out* out) {
    return answered([&] {
        const auto checksum = checksum_in(words->word[0]);
        const auto text = view(words->word[1]);
        std::vector<size_t> places;
        if (words->count == 4) {
            places = places_in(words->word[2], text.size());
        }
        const size_t errors = number_in(words->word[words->count - 1], BECH32_MAX_ERRORS);
        Grown room{most_memory, most_texts, text.size(), {}, {}, {}, {}};
        bool are_all = true;
        const auto found = room.searched([&](Memory& lent) {
            const auto listed = nearest(checksum, text, {lent, room.texts.data(), room.texts.size()}, places, errors);
            are_all = listed || listed.error().number() != BECH32_NO_ROOM;
            return are_all ? listed : Outcome<Texts>(Texts(room.texts.data(), text.size(), most_texts));
        });
        return said(out, found, [&](const Texts& texts) {
            for (const std::string_view near : texts) {
                put_text(out, " ");
                put(out, near);
            }
            put_text(out, are_all ? "" : " more");
        });
    });
}

const char* word_of(Kind kind) {
    static const char* const words[] = {" unchanged ", " swapped ", " left-out ", " put-in ", " replaced "};
    return words[static_cast<size_t>(kind)];
}

uint32_t edits_line(const Words* words, Out* out) {
    return answered([&] {
        const auto checksum = checksum_in(words->word[0]);
        const auto text = view(words->word[1]);
        Grown room{BECH32_NEAR_EDITS_MEMORY(measured(text)), BECH32_NEAR_EDITS, text.size() + 1, {}, {}, {}, {}};
        const auto found =
            room.searched([&](Memory& lent) { return near_edits(checksum, text, room.edits(lent)); });
        return said(out, found, [&](const Edits& edits) {
            for (const Edited& it : edits) {
                put_text(out, word_of(it.kind));
                const size_t last = (it.kind == Kind::put_in ? it.text.size() : text.size()) - 1;
                put_number(out, last - it.place - (it.kind == Kind::swapped));
                put_text(out, " ");
                put(out, it.text);
            }
        });
    });
}

uint32_t suggest_line(const Words* words, Out* out) {
    static SuggestRoom room;
    return said(out, segwit::suggest(view(words->word[1]), view(words->word[0]), room), [&](const Edits& edits) {
        for (const Edited& it : edits) {
            put_text(out, word_of(it.kind));
            put_number(out, it.place);
            put_text(out, " ");
            put(out, it.text);
        }
    });
}

/* Where no single character is at fault, the number behind that of the refusal is a length. */
size_t length_at_fault(std::string_view text, uint32_t refused) {
    const size_t separator = text.rfind('1');
    switch (refused) {
    case BECH32_NOT_UTF8:
    case BECH32_BAD_NUMBER:
        return 0;
    case BECH32_HRP_EMPTY:
    case BECH32_HRP_TOO_LONG:
        return separator;
    default:
        return text.size();
    }
}

uint32_t fault_line(const Words* words, Out* out) {
    return answered([&]() -> uint32_t {
        const auto checksum = checksum_in(words->word[0]);
        const auto text = view(words->word[1]);
        const auto refused = fault(checksum, text);
        if (!refused) {
            put_text(out, "ok");
            return FINE;
        }
        put_text(out, "err ");
        put_number(out, refused->number());
        put_text(out, " ");
        put_number(out, refused->place().value_or(length_at_fault(text, refused->number())));
        return FINE;
    });
}

uint32_t checksum_line(const Words* words, Out* out) {
    const auto text = view(words->word[0]);
    const auto by_bech32m = check(Checksum::bech32m, text);
    if (by_bech32m || check(Checksum::bech32, text)) {
        put_text(out, by_bech32m ? "ok bech32m" : "ok bech32");
        return FINE;
    }
    return by_bech32m.error().number();
}

uint32_t liquid_line(const Words* words, Out* out) {
    return answered([&] {
        const auto text = view(words->word[0]);
        std::vector<size_t> places;
        if (words->count == 3) {
            places = places_in(words->word[1], text.size());
        }
        const size_t errors = number_in(words->word[words->count - 1], BECH32_MAX_LIQUID_ERRORS);
        Grown room{BECH32_LIQUID_NEAREST_MEMORY(measured(text)), 1, text.size(), {}, {}, {}, {}};
        const auto found = room.searched([&](Memory& lent) {
            return liquid::nearest(text, {lent, room.texts.data(), room.texts.size()}, places, errors);
        });
        return said(out, found, [&](const Texts& texts) {
            for (const std::string_view near : texts) {
                put_text(out, " ");
                put(out, near);
            }
        });
    });
}

/* Its one word is the rest of the line, as that of the others of descriptors is. */
uint32_t descriptor_line(const Words* words, Out* out) {
    const auto text = view(words->word[0]);
    Grown room{BECH32_DESCRIPTOR_MEND_MEMORY(text.size()), BECH32_NEAR_EDITS, text.size() + 1, {}, {}, {}, {}};
    const auto found = room.searched([&](Memory& lent) { return descriptor::mend(text, room.edits(lent)); });
    return said(out, found, [&](const Edits& edits) {
        for (const Edited& it : edits) {
            put_text(out, it.kind == Kind::replaced ? " changed " : word_of(it.kind));
            put_number(out, it.place);
            put_text(out, " ");
            put(out, it.text);
        }
    });
}

/* "ok" and what is put, or a refusal, with the place of a character that may not stand where it does. */
template <class Outcome, class Put>
uint32_t said_with_place(Out* out, const Outcome& outcome, Put put_value) {
    if (outcome || outcome.error().number() != NOT_IN_DESCRIPTOR) {
        return said(out, outcome, put_value);
    }
    put_text(out, "err ");
    put_number(out, NOT_IN_DESCRIPTOR);
    put_text(out, " ");
    put_number(out, *outcome.error().place());
    return FINE;
}

uint32_t descriptor_check_line(const Words* words, Out* out) {
    return said_with_place(out, descriptor::check(view(words->word[0])), [](std::string_view) {});
}

uint32_t descriptor_checksum_line(const Words* words, Out* out) {
    return said_with_place(out, descriptor::checksum(view(words->word[0])),
                           as_text<Text<BECH32_DESCRIPTOR_CHECKSUM>>(out));
}

/* No string has this threshold, which stands for a word that is no threshold. */
uint32_t threshold_in(Word word) {
    size_t number = 0;
    return read_number(word, 9, &number) ? static_cast<uint32_t>(number) : 1;
}

char index_in(Word word) { return word.length == 1 ? static_cast<char>(word.bytes[0]) : '\0'; }

uint32_t parse_line(const Words* words, Out* out) {
    const auto text = view(words->word[0]);
    return said(out, codex32::parse(text), [&](const codex32::Header& it) {
        put_text(out, " ");
        put_number(out, it.threshold);
        put_text(out, " ");
        put(out, it.identifier.view());
        put_text(out, " ");
        put(out, {&it.share_index, 1});
        put_text(out, " ");
        put(out, text.substr(CODEX32_PAYLOAD_AT, it.payload_length));
    });
}

uint32_t share_line(const Words* words, Out* out) {
    return said(out, codex32::share(view(words->word[0])), [&](const codex32::Share& it) {
        put_text(out, " ");
        put_number(out, it.threshold);
        put_text(out, " ");
        put(out, it.identifier.view());
        put_text(out, " ");
        put(out, {&it.share_index, 1});
        put_text(out, " ");
        put_hex(out, it.bytes.data(), it.bytes.size());
    });
}

uint32_t proposed(Out* out, const codex32::Outcome<codex32::SecretText>& text) {
    if (!text && text.error().number() == CODEX32_NO_NEAREST) {
        put_text(out, "none");
        return FINE;
    }
    if (!text) {
        return text.error().number();
    }
    put_text(out, "some ");
    put(out, text->view());
    return FINE;
}

/* Memory for lines of any length: the room of codex32.hpp is for texts of up to 127 characters. */
codex32::Memory& lent_for_lines() {
    alignas(16) static uint8_t bytes[CODEX32_MEMORY(LINE_LIMIT)];
    static codex32::Memory memory(bytes, sizeof bytes);
    return memory;
}

uint32_t propose_line(const Words* words, Out* out) {
    return proposed(out, codex32::propose(view(words->word[0]), lent_for_lines()));
}

uint32_t propose_long_line(const Words* words, Out* out) {
    return proposed(out, codex32::propose_long(view(words->word[0]), lent_for_lines()));
}

uint32_t codex32_encode_line(const Words* words, Out* out) {
    return answered([&] {
        return said(out,
                    codex32::encode(threshold_in(words->word[0]), view(words->word[1]), index_in(words->word[2]),
                                    bytes_in(words->word[3])),
                    as_text<codex32::SecretText>(out));
    });
}

std::vector<std::string_view> texts_in(const Word* word, size_t count) {
    std::vector<std::string_view> texts;
    for (size_t at = 0; at < count; at++) {
        texts.push_back(view(word[at]));
    }
    return texts;
}

/* More texts than a set has are refused with 4; the programs say which of them is at fault. */
uint32_t refused_many(char share_index, const std::vector<std::string_view>& texts) {
    const auto first = codex32::derive(share_index, std::array<std::string_view, 1>{texts[0]});
    if (!first && first.error().number() == CODEX32_NO_SHARE_INDEX) {
        return CODEX32_NO_SHARE_INDEX;
    }
    for (const auto text : texts) {
        const auto alone = codex32::derive('s', std::array<std::string_view, 1>{text});
        if (!alone && alone.error().number() != CODEX32_TOO_FEW_SHARES) {
            return alone.error().number();
        }
    }
    for (const auto text : texts) {
        const auto pair = codex32::derive('s', std::array<std::string_view, 2>{texts[0], text});
        if (!pair && pair.error().number() == CODEX32_OTHER_SET) {
            return CODEX32_OTHER_SET;
        }
    }
    return CODEX32_INDEX_TWICE;
}

uint32_t derived_at(char share_index, const Word* word, size_t count, Out* out) {
    const auto texts = texts_in(word, count);
    if (count > CODEX32_MAX_SHARES) {
        return refused_many(share_index, texts);
    }
    return said(out, codex32::derive(share_index, texts), as_text<codex32::SecretText>(out));
}

uint32_t derive_line(const Words* words, Out* out) {
    return derived_at(index_in(words->word[0]), words->word + 1, words->count - 1, out);
}

uint32_t recover_line(const Words* words, Out* out) { return derived_at('s', words->word, words->count, out); }

uint32_t split_line(const Words* words, Out* out) {
    return answered([&] {
        const size_t count = number_in(words->word[1], 99);
        const auto secret = bytes_in(words->word[3]), random = bytes_in(words->word[4]);
        return said(out, codex32::split(threshold_in(words->word[0]), view(words->word[2]), secret, random, count),
                    [&](const codex32::Shares& shares) {
                        for (const std::string_view share : shares) {
                            put_text(out, " ");
                            put(out, share);
                        }
                    });
    });
}

}  // namespace

extern "C" {

const Command b32_commands[] = {
    {"encode", 3, 3, encode_line},
    {"decode", 1, 1, decode_line},
    {"decode-strict", 2, 2, decode_strict_line},
    {"decode-elements", 2, 2, decode_elements_line},
    {"encode-elements", 3, 3, encode_elements_line},
    {"segwit-encode", 3, 3, segwit_encode_line},
    {"segwit-decode", 1, 1, segwit_decode_line},
    {"correct", 2, 3, correct_line},
    {"liquid-encode", 4, 4, liquid_encode_line},
    {"liquid-decode", 1, 1, liquid_decode_line},
    {nullptr, 0, 0, nullptr},
};

const Command c32_commands[] = {
    {"parse", 1, 1, parse_line},
    {"propose", 1, 1, propose_line},
    {"propose-long", 1, 1, propose_long_line},
    {"share", 1, 1, share_line},
    {"encode", 4, 4, codex32_encode_line},
    {"derive", 2, MOST_WORDS, derive_line},
    {"recover", 1, MOST_WORDS, recover_line},
    {"split", 5, 5, split_line},
    {nullptr, 0, 0, nullptr},
};

const Command mend_commands[] = {
    {"nearest", 3, 4, nearest_line},
    {"edits", 2, 2, edits_line},
    {"suggest", 2, 2, suggest_line},
    {"fault", 2, 2, fault_line},
    {"checksum", 1, 1, checksum_line},
    {"liquid", 2, 3, liquid_line},
    {nullptr, 0, 0, nullptr},
};

const Command mend_rest_commands[] = {
    {"descriptor", 1, 1, descriptor_line},
    {"descriptor-check", 1, 1, descriptor_check_line},
    {"descriptor-checksum", 1, 1, descriptor_checksum_line},
    {nullptr, 0, 0, nullptr},
};
}
