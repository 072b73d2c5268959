/* Descriptors with two changed characters, by bech32.hpp: what is listed, how it is made, and what is refused. */
#include <cstdio>
#include <cstdlib>
#include <string>
#include <vector>

#include "bech32.hpp"

using namespace bech32_proved;

namespace {

const std::string right = "raw(deadbeef)#89f8spxm";
const std::string longer = "wpkh(02f9308a019258c31049344f85f89d5229b531c845836f99b08601f113bce036f9)#8zl0zxma";

void expect(bool holds, const char* what) {
    if (!holds) {
        std::fprintf(stderr, "descriptor_test: %s\n", what);
        std::exit(1);
    }
}

/* Rooms are large: here they are static. */
static MendTwoRoom<100> room;

/* That a text is the only one listed of it with other characters at two places, and how it is made. */
void mends(const std::string& text, std::size_t first, char one, std::size_t second, char other) {
    std::string wrong = text;
    wrong[first] = one;
    wrong[second] = other;
    const auto found = descriptor::mend_two(wrong, room);
    expect(found && found->size() == 1 && !found->empty(), "one text is listed");
    for (const descriptor::MendedTwice& it : *found) {
        expect(it.text == text, "the right text is listed");
        expect(it.first == Change{first, one, text[first]}, "the first character that is changed");
        expect(it.second == Change{second, other, text[second]}, "the second character that is changed");
    }
    expect((*found)[0].text == text, "a list has its items by their indexes");
}

void mends_two_characters() {
    for (std::size_t first = 0; first < right.size(); first += 3) {
        for (std::size_t second = first + 1; second < right.size(); second += 5) {
            const char one = right[first] == 'x' ? 'y' : 'x';
            mends(right, first, one, second, right[second] == 'q' ? 'p' : 'q');
        }
    }
    mends(longer, 0, 'W', longer.size() - 1, 'q');
    // Bytes of no descriptor, and the separator beside a character of the checksum.
    mends(right, 5, '\xc3', 6, '\xa9');
    mends(longer, longer.size() - 9, ' ', longer.size() - 1, '#');
}

void lists_no_others() {
    std::string wrong = right;
    wrong[0] = 'x';
    for (const std::string& text : {right, wrong, std::string(), std::string("#"), std::string("raw(deadbeef)")}) {
        const auto found = descriptor::mend_two(text, room);
        expect(found && found->empty() && found->begin() == found->end(), "no text is listed");
    }
}

/* The numbers of the header, with nothing that the caller did not make. */
void refuses() {
    const auto too_long = descriptor::mend_two(std::string(BECH32_MAX_DESCRIPTOR_TWO + 1, 'x'), room);
    expect(!too_long && too_long.error().number() == BECH32_DESCRIPTOR_TOO_LONG, "1,401 characters are too many");
    static MendTwoRoom<BECH32_MAX_DESCRIPTOR_TWO> large;
    const auto longest = descriptor::mend_two(std::string(BECH32_MAX_DESCRIPTOR_TWO, 'x'), large);
    expect(longest && longest->empty(), "1,400 characters are not too many");
    const std::string wrong = "sawqdeadbeef)#89f8spxm";
    std::vector<std::size_t> places(2);
    std::vector<std::uint8_t> texts(wrong.size()), bytes(BECH32_DESCRIPTOR_TWO_MEMORY(wrong.size()) + 15);
    Memory none(nullptr, 0), memory(bytes.data(), bytes.size());
    const auto without = descriptor::mend_two(wrong, {none, nullptr, places.data(), 1, texts.data(), texts.size()});
    expect(!without && without.error().number() == BECH32_NO_MEMORY, "memory is wanted");
    for (const std::size_t most : {std::size_t{0}, std::size_t{1}}) {
        const EditsSpace space{memory, nullptr, places.data(), most, texts.data(), texts.size() - 1 + most};
        const auto found = descriptor::mend_two(wrong, space);
        expect(found.has_value() == (most == 1), "room for a text is wanted");
        if (!found) {
            expect(found.error().number() == BECH32_NO_ROOM && found.error().count() == 1, "one text is counted");
        } else {
            expect(found->size() == 1 && (*found)[0].text == right, "a room of vectors serves");
        }
    }
}

}  // namespace

int main() {
    mends_two_characters();
    lists_no_others();
    refuses();
    std::puts("bech32.hpp: descriptors with two changed characters are mended");
    return 0;
}
