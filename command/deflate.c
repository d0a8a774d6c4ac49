/* Compression without loss. It has two steps:
 *
 * 1. Repeats are found. Three octets or more that stood not long before are not written again: a repeat says how many they are, and how far back they
 *    stood. So the data become a row of tokens, each of which is an octet or a repeat.
 * 2. The tokens are written in bits, in blocks. Each block has codes of its own, in which a token that is frequent has few bits and a rare one has many
 *    (Huffman's codes). The block begins with the lengths of its codes, from which a reader makes the same codes.
 */
#include "deflate.h"

#include "command.h"

#include <stdlib.h>
#include <string.h>

static void *memory(size_t size)
{
    void *made = calloc(size, 1);
    if (made == NULL)
        give_up("the picture", "there is no memory to compress it", 0, "Close other programs, or take a machine with more memory");
    return made;
}

/* ---- Bits that are written. The lowest bit of an octet comes first. */

struct bits {
    uint8_t *octets;
    size_t length, room;
    uint64_t waiting;
    unsigned waiting_count;
};

static void write_octet(struct bits *out, uint8_t octet)
{
    if (out->length == out->room) {
        uint8_t *larger = realloc(out->octets, 2 * out->room + 65536);
        if (larger == NULL)
            give_up("the picture", "there is no memory for its octets", 0, "Close other programs, or take a machine with more memory");
        out->octets = larger;
        out->room = 2 * out->room + 65536;
    }
    out->octets[out->length++] = octet;
}

/* Writes the lowest bits of a number, so many of them, the lowest first. */
static void write_bits(struct bits *out, uint64_t number, unsigned count)
{
    out->waiting |= number << out->waiting_count;
    out->waiting_count += count;
    while (out->waiting_count >= 8) {
        write_octet(out, out->waiting & 255);
        out->waiting >>= 8;
        out->waiting_count -= 8;
    }
}

/* Fills the octet that is begun with zeros. */
static void end_octet(struct bits *out)
{
    write_bits(out, 0, (8 - out->waiting_count % 8) % 8);
}

/* ---- Codes */

enum { MOST_SYMBOLS = 288, LONGEST_CODE = 15 };

/* A code for each of `count` symbols: how long it is, 0 where the symbol is not used, and its bits. */
struct code {
    size_t count;
    uint8_t lengths[MOST_SYMBOLS];
    uint16_t bits[MOST_SYMBOLS];
};

/* Among the trees that stand by themselves, the lightest, or `none`. A tree without weight is no tree, and one with a parent does not stand by itself. */
static size_t lightest(const uint32_t *weights, const size_t *parents, size_t trees, size_t none)
{
    size_t found = none;
    for (size_t tree = 0; tree < trees; tree++) {
        if (weights[tree] != 0 && parents[tree] == 0 && (found == none || weights[tree] < weights[found]))
            found = tree;
    }
    return found;
}

/* How long each symbol's code is to be, by Huffman's way: the two lightest trees get one parent, until one tree is left, and a code is as long as the way
 * from its symbol up to the root. A symbol that is alone gets one bit. The answer is the longest length. */
static unsigned grow_tree(const uint32_t *counts, size_t symbols, uint8_t *lengths)
{
    uint32_t weights[2 * MOST_SYMBOLS] = {0};
    size_t parents[2 * MOST_SYMBOLS] = {0}, trees = symbols, none = 2 * MOST_SYMBOLS;
    size_t one, other;
    unsigned longest = 0;
    memcpy(weights, counts, symbols * sizeof *weights);
    while ((one = lightest(weights, parents, trees, none)) != none) {
        parents[one] = trees;
        if ((other = lightest(weights, parents, trees, none)) == none)
            break;
        parents[other] = trees;
        weights[trees++] = weights[one] + weights[other];
    }
    for (size_t symbol = 0; symbol < symbols; symbol++) {
        /* The root has got a parent too, which was never made: the way ends there, one step past the root. */
        unsigned steps = 0;
        for (size_t tree = symbol; tree < trees && parents[tree] != 0; tree = parents[tree])
            steps++;
        lengths[symbol] = (uint8_t)(steps > 1 ? steps - 1 : steps);
        longest = lengths[symbol] > longest ? lengths[symbol] : longest;
    }
    return longest;
}

/* Deflate's codes are written from their highest bit on, and everything else from the lowest. */
static uint16_t turned_round(unsigned bits, unsigned length)
{
    unsigned turned = 0;
    for (unsigned i = 0; i < length; i++)
        turned |= (bits >> i & 1) << (length - 1 - i);
    return (uint16_t)turned;
}

/* The best code for symbols that occur so often, with no length above the limit. Where a length is above it, the counts are made more alike. */
static void make_code(struct code *code, uint32_t *counts, size_t symbols, unsigned limit)
{
    unsigned next = 0;
    memset(code, 0, sizeof *code);
    code->count = symbols;
    while (grow_tree(counts, symbols, code->lengths) > limit) {
        for (size_t symbol = 0; symbol < symbols; symbol++)
            counts[symbol] = (counts[symbol] + 1) / 2;
    }
    /* Codes of one length are numbers in a row, in the order of their symbols. The first of the next length follows them with a 0 behind it. */
    for (unsigned length = 1; length <= limit; length++, next <<= 1) {
        for (size_t symbol = 0; symbol < symbols; symbol++) {
            if (code->lengths[symbol] == length)
                code->bits[symbol] = turned_round(next++, length);
        }
    }
}

static void write_symbol(struct bits *out, const struct code *code, size_t symbol)
{
    write_bits(out, code->bits[symbol], code->lengths[symbol]);
}

/* ---- Numbers as symbols */

/* A large number is a symbol, which stands for numbers in a row, and bits that say which of them it is. */
struct parted {
    size_t symbol;
    unsigned bits, rest;
};

/* From one power of two to the next there are 2^share symbols, so that few symbols reach far. */
static struct parted part(unsigned number, unsigned share)
{
    unsigned bits = 0;
    while (number >> bits >= 2u << share)
        bits++;
    return (struct parted){((size_t)bits << share) + (number >> bits), bits, number & ((1u << bits) - 1)};
}

enum { SHORTEST = 3, LONGEST = 258, WINDOW = 32768 };

/* The symbols below 256 are the octets themselves. Then come the end of a block, and how long a repeat is. The longest repeat has a symbol of its own. */
enum { END_OF_BLOCK = 256, FIRST_LENGTH = 257, LONGEST_LENGTH = 285, TOKEN_SYMBOLS = 286, DISTANCE_SYMBOLS = 30 };

static struct parted part_length(unsigned length)
{
    struct parted parted = part(length - SHORTEST, 2);
    parted.symbol += FIRST_LENGTH;
    return length == LONGEST ? (struct parted){LONGEST_LENGTH, 0, 0} : parted;
}

static struct parted part_distance(unsigned distance)
{
    return part(distance - 1, 1);
}

/* ---- The lengths of a block's codes, which are packed as well */

enum { AGAIN = 16, FEW_ZEROS = 17, MANY_ZEROS = 18, PACKED_SYMBOLS = 19, MOST_LENGTHS = TOKEN_SYMBOLS + DISTANCE_SYMBOLS };

/* Symbols of lengths: up to 15 the length itself, or how often the one before or a zero comes again, for which so many bits follow. */
struct packed_lengths {
    size_t count;
    struct parted symbols[MOST_LENGTHS];
};

static void add_packed(struct packed_lengths *packed, size_t symbol, unsigned bits, size_t rest)
{
    packed->symbols[packed->count++] = (struct parted){symbol, bits, (unsigned)rest};
}

static size_t smaller(size_t a, size_t b)
{
    return a < b ? a : b;
}

static void pack_lengths(struct packed_lengths *packed, const uint8_t *lengths, size_t count)
{
    size_t at = 0, run;
    packed->count = 0;
    for (; at < count; at += run) {
        run = 1;
        while (at + run < count && lengths[at + run] == lengths[at])
            run++;
        if (lengths[at] == 0 && run >= 11)
            add_packed(packed, MANY_ZEROS, 7, (run = smaller(run, 138)) - 11);
        else if (lengths[at] == 0 && run >= 3)
            add_packed(packed, FEW_ZEROS, 3, run - 3);
        else if (lengths[at] != 0 && run >= 4) {
            run = smaller(run, 7);
            add_packed(packed, lengths[at], 0, 0);
            add_packed(packed, AGAIN, 2, run - 4);
        } else {
            run = 1;
            add_packed(packed, lengths[at], 0, 0);
        }
    }
}

/* How many symbols are to be told of: those behind the last that is used are left out. */
static size_t used_symbols(const struct code *code, size_t least)
{
    size_t count = code->count;
    while (count > least && code->lengths[count - 1] == 0)
        count--;
    return count;
}

/* Writes the lengths of both codes, by a third code whose lengths have three bits each. */
static void write_codes(struct bits *out, const struct code *tokens, const struct code *distances)
{
    static const uint8_t order[PACKED_SYMBOLS] = {16, 17, 18, 0, 8, 7, 9, 6, 10, 5, 11, 4, 12, 3, 13, 2, 14, 1, 15};
    uint8_t lengths[MOST_LENGTHS];
    uint32_t counts[PACKED_SYMBOLS] = {0};
    struct packed_lengths packed;
    struct code code;
    size_t token_count = used_symbols(tokens, FIRST_LENGTH), distance_count = used_symbols(distances, 1), told = PACKED_SYMBOLS;
    memcpy(lengths, tokens->lengths, token_count);
    memcpy(lengths + token_count, distances->lengths, distance_count);
    pack_lengths(&packed, lengths, token_count + distance_count);
    for (size_t i = 0; i < packed.count; i++)
        counts[packed.symbols[i].symbol]++;
    make_code(&code, counts, PACKED_SYMBOLS, 7);
    while (told > 4 && code.lengths[order[told - 1]] == 0)
        told--;
    write_bits(out, token_count - FIRST_LENGTH, 5);
    write_bits(out, distance_count - 1, 5);
    write_bits(out, told - 4, 4);
    for (size_t i = 0; i < told; i++)
        write_bits(out, code.lengths[order[i]], 3);
    for (size_t i = 0; i < packed.count; i++) {
        write_symbol(out, &code, packed.symbols[i].symbol);
        write_bits(out, packed.symbols[i].rest, packed.symbols[i].bits);
    }
}

/* ---- Blocks */

/* An octet where the length is 0, and else a repeat: so many octets, which stood so far back. */
struct token {
    uint16_t length, octet_or_distance;
};

enum { BLOCK_TOKENS = 32768 };

struct block {
    size_t count;
    struct token tokens[BLOCK_TOKENS];
};

static void write_tokens(struct bits *out, const struct block *block, const struct code *tokens, const struct code *distances)
{
    for (size_t i = 0; i < block->count; i++) {
        struct token token = block->tokens[i];
        if (token.length == 0) {
            write_symbol(out, tokens, token.octet_or_distance);
            continue;
        }
        struct parted length = part_length(token.length), distance = part_distance(token.octet_or_distance);
        write_symbol(out, tokens, length.symbol);
        write_bits(out, length.rest, length.bits);
        write_symbol(out, distances, distance.symbol);
        write_bits(out, distance.rest, distance.bits);
    }
    write_symbol(out, tokens, END_OF_BLOCK);
}

/* Writes a block with codes that are made for it. */
static void write_block(struct bits *out, const struct block *block, int is_last)
{
    enum { OWN_CODES = 2 };
    uint32_t token_counts[TOKEN_SYMBOLS] = {0}, distance_counts[DISTANCE_SYMBOLS] = {0};
    struct code tokens, distances;
    token_counts[END_OF_BLOCK] = 1;
    for (size_t i = 0; i < block->count; i++) {
        struct token token = block->tokens[i];
        if (token.length == 0) {
            token_counts[token.octet_or_distance]++;
        } else {
            token_counts[part_length(token.length).symbol]++;
            distance_counts[part_distance(token.octet_or_distance).symbol]++;
        }
    }
    make_code(&tokens, token_counts, TOKEN_SYMBOLS, LONGEST_CODE);
    make_code(&distances, distance_counts, DISTANCE_SYMBOLS, LONGEST_CODE);
    write_bits(out, is_last ? 1 : 0, 1);
    write_bits(out, OWN_CODES, 2);
    write_codes(out, &tokens, &distances);
    write_tokens(out, block, &tokens, &distances);
}

/* ---- Repeats */

enum { HASHES = 32768, MOST_TRIES = 128, LONG_ENOUGH = 128, FAR = 4096 };

/* Where octets stood before. Places with the same three octets have the same hash. `newest` is the last place of a hash plus 1, or 0, and `earlier` leads
 * from a place to the one before it with that hash; of places before the window it knows nothing. */
struct finder {
    const uint8_t *octets;
    size_t length;
    uint32_t newest[HASHES], earlier[WINDOW];
};

struct repeat {
    size_t length, distance;
};

static size_t hash_of(const uint8_t *octets)
{
    uint32_t three = (uint32_t)octets[0] << 16 | (uint32_t)octets[1] << 8 | octets[2];
    return three * 2654435761u >> 17;
}

static void remember(struct finder *finder, size_t at)
{
    if (finder->length - at < SHORTEST)
        return;
    size_t hash = hash_of(finder->octets + at);
    finder->earlier[at % WINDOW] = finder->newest[hash];
    finder->newest[hash] = (uint32_t)at + 1;
}

/* The longest repeat that can begin at a place, among the nearest ones. One of three octets from far away takes more bits than the octets themselves. */
static struct repeat find_repeat(const struct finder *finder, size_t at)
{
    struct repeat best = {SHORTEST - 1, 0};
    size_t most = smaller(finder->length - at, LONGEST);
    const uint8_t *here = finder->octets + at;
    uint32_t next = most < SHORTEST ? 0 : finder->newest[hash_of(here)];
    for (int tries = 0; tries < MOST_TRIES && next != 0 && at - (next - 1) <= WINDOW; tries++) {
        const uint8_t *there = finder->octets + next - 1;
        size_t same = 0;
        /* The octet that would make it longer than the best is compared first, since that one differs most often. */
        if (there[best.length] == here[best.length]) {
            while (same < most && there[same] == here[same])
                same++;
        }
        if (same > best.length)
            best = (struct repeat){same, (size_t)(here - there)};
        if (best.length >= LONG_ENOUGH || best.length == most)
            break;
        next = finder->earlier[(next - 1) % WINDOW];
    }
    if (best.length < SHORTEST || (best.length == SHORTEST && best.distance > FAR))
        best.length = 0;
    return best;
}

static void add_token(struct block *block, size_t length, size_t octet_or_distance)
{
    block->tokens[block->count++] = (struct token){(uint16_t)length, (uint16_t)octet_or_distance};
}

/* A repeat is not taken where a longer one begins at the next octet. */
static void write_blocks(struct bits *out, struct finder *finder, struct block *block)
{
    const struct repeat none = {0, 0};
    struct repeat here = find_repeat(finder, 0), next;
    size_t at = 0;
    while (at < finder->length) {
        if (block->count == BLOCK_TOKENS) {
            show_progress("compressing the picture", at, finder->length);
            write_block(out, block, 0);
            block->count = 0;
        }
        remember(finder, at);
        next = here.length < LONG_ENOUGH && at + 1 < finder->length ? find_repeat(finder, at + 1) : none;
        if (here.length == 0 || next.length > here.length) {
            add_token(block, 0, finder->octets[at++]);
            here = next;
            continue;
        }
        add_token(block, here.length, here.distance);
        for (size_t end = at + here.length; ++at < end;)
            remember(finder, at);
        here = at < finder->length ? find_repeat(finder, at) : none;
    }
    write_block(out, block, 1);
}

/* ---- The whole */

/* The sum by which a reader sees damage, Adler-32: one plus all octets, and beside it (times 2^16) the sum of all such sums, each modulo 65521. For so many
 * octets no sum reaches 2^32, so that one division serves all of them. */
static uint32_t checksum_of(const uint8_t *octets, size_t length)
{
    enum { MODULUS = 65521, STRETCH = 5552 };
    uint32_t low = 1, high = 0;
    for (size_t at = 0; at < length;) {
        for (size_t end = smaller(length, at + STRETCH); at < end; at++) {
            low += octets[at];
            high += low;
        }
        low %= MODULUS;
        high %= MODULUS;
    }
    return high << 16 | low;
}

struct compressed compress_octets(const uint8_t *octets, size_t length)
{
    struct bits out = {NULL, 0, 0, 0, 0};
    struct finder *finder = memory(sizeof *finder);
    struct block *block = memory(sizeof *block);
    finder->octets = octets;
    finder->length = length;
    /* Deflate, with a window of 32,768 octets. */
    write_octet(&out, 0x78);
    write_octet(&out, 0x9c);
    write_blocks(&out, finder, block);
    end_octet(&out);
    uint32_t checksum = checksum_of(octets, length);
    for (int i = 0; i < 4; i++)
        write_octet(&out, (uint8_t)(checksum >> (24 - 8 * i)));
    free(block);
    free(finder);
    return (struct compressed){out.octets, out.length};
}
