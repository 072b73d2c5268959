/*
 * How many texts bech32_nearest lists at most, of all texts whose data part has this many characters.
 *
 *     most accepted ERRORS MOST           three erasures of a text that is accepted with other characters there: for each
 *                                         number of characters up to MOST the most texts, and the erasures
 *     most other ERRORS CHARACTERS        three erasures of any other text
 *     most fewer ERASURES CHARACTERS      no, one or two erasures, and two errors, of any text
 *
 * A text is near where errors and erasures add up to the residue of the given one: modulo the columns of the erasures,
 * which are remainders of powers of x, the errors alone do. So the number depends on what is left of the residue, and on
 * how many columns have each direction, that is, are multiples of one. Where nothing is left, these are the text itself;
 * one error, where a column is zero; two at such; and two of one direction: 1, 31, 961 and 31 texts. Else they are one
 * error of the direction that is left, with one where a column is zero; two of it, in 30 ways; and two whose directions
 * stand on a line with it, in the projective plane of the directions.
 *
 * The code is cyclic: of all its 1,023 characters only sets of erasures are taken that have the location 0.
 *
 * Found, for two errors: `accepted` 373 of 90 characters, 652 of 132, 379,441 of 1,021, each at most BECH32_NEAREST_TEXTS of
 * two characters more; `other` 77 of 50, 217 of 90, 430 of 132, 595 of 165, 2,944 of 332, 28,007 of 1,023, which is less than
 * that for each number of characters above the one before; `fewer` beside none, one and two 1, 4 and 20 of 88 (of 90 they are
 * 2, 4 and 36), and beside none and one 16 and 451 of 1,023. For one error `accepted` has 1 of 89, 32 of 90 and 311 of 399.
 */
#include <stdint.h>
#include <stdio.h>
#include <stdlib.h>
#include <string.h>

#define ORDER 1023
#define POINTS 1057
#define LARGEST (1 << 15)
#define MAX(a, b) ((a) > (b) ? (a) : (b))

static uint8_t product[32][32], inverse[32];
static uint16_t way[LARGEST], on[POINTS][33];
static uint32_t column[ORDER], errors = 2;

/* Packed elements, five bits each, times one. */
static uint32_t times(int s, uint32_t elements) {
    uint32_t scaled = 0;
    for (int at = 0; at < 30; at += 5) {
        scaled |= (uint32_t)product[s][elements >> at & 31] << at;
    }
    return scaled;
}

static void fields(void) {
    for (int i = 0; i < 1024; i++) {
        int a = i / 32, b = i % 32, sum = 0;
        for (int bit = 4; bit >= 0; bit--) {
            sum = (sum << 1 ^ (sum >> 4 & 1 ? 0x29 : 0)) ^ (b >> bit & 1 ? a : 0);
        }
        product[a][b] = (uint8_t)sum;
        inverse[a] = (uint8_t)(sum == 1 ? b : inverse[a]);
    }
    column[0] = 1;
    for (int i = 1; i < ORDER; i++) {
        column[i] = (column[i - 1] & 0x1ffffff) << 5 ^ times(column[i - 1] >> 25, 0x3b6a57b2);
    }
}

/* The number of directions of this many elements. */
static uint32_t directions(int size) {
    return ((1u << 5 * size) - 1) / 31;
}

/* The number of the direction of elements, from 1 on; 0 where they are zero. */
static uint32_t direction(uint32_t elements, int size) {
    int zeros = elements ? __builtin_ctz(elements) / 5 : 0;
    uint32_t one = times(inverse[elements >> 5 * zeros & 31], elements);
    return elements ? 1 + directions(size - 1 - zeros) + (one >> 5 * (zeros + 1)) : 0;
}

/* The directions of three elements, and those on each line. */
static void plane(void) {
    static uint32_t point[POINTS + 1];
    int have[POINTS] = {0};
    for (uint32_t i = 0; i < LARGEST; i++) {
        point[way[i] = (uint16_t)direction(i, 3)] = i;
    }
    for (uint32_t i = 0; i < POINTS * POINTS; i++) {
        uint32_t a = point[1 + i / POINTS], b = point[1 + i % POINTS], sum = 0;
        for (int at = 0; at < 15; at += 5) {
            sum ^= product[a >> at & 31][b >> at & 31];
        }
        if (sum == 0) {
            on[i / POINTS][have[i / POINTS]++] = (uint16_t)(1 + i % POINTS);
        }
    }
}

/* What is left of each column where those of this many erasures are taken out, each with one element of all. */
static void without(const int *erasures, int count, uint32_t *left) {
    memcpy(left, column, sizeof column);
    for (int j = 0; j < count; j++) {
        uint32_t row = left[erasures[j]], at = (uint32_t)__builtin_ctz(row) / 5 * 5;
        row = times(inverse[row >> at & 31], row);
        for (int i = 0; i < ORDER; i++) {
            uint32_t rest = left[i] ^ times(left[i] >> at & 31, row);
            left[i] = (rest & ((1u << at) - 1)) | rest >> (at + 5) << at;
        }
    }
}

/* Of each three erasures the columns between them, one more below each time, and further ones above. */
static void accepted(int most) {
    static uint32_t best[ORDER + 1], left[ORDER];
    static uint16_t ways[3 * ORDER], more[3 * ORDER], below[POINTS + 1], found[POINTS + 1];
    static int erasures[ORDER + 1][3];
    for (int set = most; set < most * most; set++) {
        int a = set / most, b = set % most;
        if (b <= a) {
            continue;
        }
        without((int[]){0, a, b}, 3, left);
        for (int i = 0; i < 3 * ORDER; i++) {
            ways[i] = way[left[i % ORDER]];
            more[i] = (uint16_t)(errors < 2 ? 0 : ways[i] ? 31 : 961);
        }
        uint32_t total = 1;
        memset(below, 0, sizeof below);
        below[0] = 31;
        for (int low = 0; low + b < most; low++) {
            for (int i = ORDER + (low ? -low : 1); i < ORDER + (low ? 1 - low : b); i++) {
                total += i == ORDER + a ? 0 : below[ways[i]];
                below[ways[i]] += i == ORDER + a ? 0 : more[i];
            }
            uint32_t sum = total;
            memcpy(found, below, sizeof found);
            for (int n = low + b + 1, i = ORDER + b + 1; n <= most; n++, i++) {
                if (sum > best[n]) {
                    best[n] = sum;
                    memcpy(erasures[n], (int[]){low, low + a, low + b}, sizeof erasures[n]);
                }
                sum += found[ways[i]];
                found[ways[i]] += more[i];
            }
        }
    }
    for (int n = 3; n <= most; n++) {
        printf("%d %u %d %d %d\n", n, best[n], erasures[n][0], erasures[n][1], erasures[n][2]);
    }
}

/* The most texts where something is left, and this many columns have each direction. */
static uint32_t most_of(const uint16_t *columns) {
    uint32_t all = 0, own = 0, most = 0, squares[POINTS + 1] = {0};
    for (int i = 1; i <= POINTS; i++) {
        all += columns[i];
        own += (uint32_t)columns[i] * columns[i];
    }
    for (int i = 0; i < POINTS; i++) {
        uint32_t sum = 0;
        for (int j = 0; j < 33; j++) {
            sum += columns[on[i][j]];
        }
        for (int j = 0; j < 33; j++) {
            squares[on[i][j]] += sum * sum;
        }
    }
    for (int i = 1; i <= POINTS; i++) {
        uint32_t m = columns[i], two = (squares[i] - 2 * m * all - 30 * m * m - own) / 2;
        uint32_t texts = m + (errors < 2 ? 0 : 31 * columns[0] * m + 15 * (m * m - m) + two);
        most = MAX(most, texts);
    }
    return most;
}

static void other(int characters) {
    static uint32_t left[ORDER];
    uint32_t most = 0;
    for (int set = characters; set < characters * characters; set++) {
        int a = set / characters, b = set % characters;
        uint16_t columns[POINTS + 1] = {0};
        if (b <= a) {
            continue;
        }
        without((int[]){0, a, b}, 3, left);
        for (int i = 1; i < characters; i++) {
            columns[way[left[i]]] += i != a && i != b;
        }
        most = MAX(most, most_of(columns));
        for (int low = 1; low + b < characters && characters < ORDER; low++) {
            columns[way[left[ORDER - low]]]++;
            columns[way[left[characters - low]]]--;
            most = MAX(most, most_of(columns));
        }
    }
    printf("%d %u\n", characters, most);
}

/* Each two errors, up to a factor, are those of one direction. */
static uint32_t most_by_trying(const int *erasures, int count, int characters) {
    static uint32_t left[ORDER];
    static uint16_t texts[1082402 * 33];
    uint32_t most = 0;
    int size = 6 - count;
    without(erasures, count, left);
    memset(texts, 0, (directions(size) + 1) * sizeof *texts);
    for (int p = 0; p < characters; p++) {
        texts[direction(left[p], size)] += left[p] != 0;
        for (int i = 1; i < 32 * p && left[p]; i++) {
            uint32_t sum = left[p] ^ times(i % 32, left[i / 32]);
            texts[direction(sum, size)] += i % 32 && left[i / 32];
        }
    }
    for (uint32_t i = 0; i <= directions(size); i++) {
        most = MAX(most, i ? texts[i] : 1u + 31u * texts[0]);
    }
    return most;
}

static void fewer(int count, int characters) {
    uint32_t most = 0;
    int is_part = characters < ORDER;
    for (int i = 0; i < (count && is_part ? characters : 1); i++) {
        for (int j = i + 1; j < (count > 1 ? characters : i + 2); j++) {
            uint32_t found = most_by_trying((int[]){i, j}, count, characters);
            most = MAX(most, found);
        }
    }
    printf("%d %u\n", characters, most);
}

int main(int words, char **word) {
    char mode = words == 4 ? word[1][0] : 0;
    int of = mode ? atoi(word[2]) : 0, number = mode ? atoi(word[3]) : 0;
    fields();
    plane();
    errors = mode == 'f' ? 2 : (uint32_t)of;
    mode == 'a' ? accepted(number) : mode == 'o' ? other(number) : mode == 'f' ? fewer(of, number) : (void)0;
    return mode ? 0 : fputs("most accepted | other | fewer NUMBER CHARACTERS\n", stderr), !mode;
}
