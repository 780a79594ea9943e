/* An action on a board, written by hand: what the library's call is held to in time. Same record, area and answers as lemondarts_action.
 *
 * Three passes over the places, as the answers' order asks for: check 25 on every table that is on; the entries of the action, which say whether it
 * is denied; the move. Trips cost no jump, which would often be mispredicted. Compiled twice: as plain C, and with WITH_SSE2, where the entries of
 * a table are checked by SSE2 intrinsics. Where there is no SSE2 both are plain.
 */
#include "lemondarts.h"

#ifdef WITH_SSE2
#define BY_HAND_ACTION by_hand_action_with_sse2
#else
#define BY_HAND_ACTION by_hand_action
#endif

/* Cases of a place. */
enum { EMPTY, ENFORCED, WATCHED, FULFILLED };

static unsigned word(const uint8_t *at) {
    return at[0] | (unsigned)at[1] << 8;
}

/* Whether each of the entries is a row or a trip. One more than a trip wraps to 0, so the largest of these is at most the number of rows. A place
 * has room for 64 blocks of 16 entries, so the last block lies in it: what comes there after the entries is masked.
 */
#if defined(WITH_SSE2) && defined(__SSE2__)
#include <emmintrin.h>

static __m128i one_more(const uint8_t *entries) {
    return _mm_add_epi8(_mm_loadu_si128((const __m128i *)entries), _mm_set1_epi8(1));
}

static int entries_fit(const uint8_t *entries, size_t count, unsigned rows) {
    /* From here 16 bytes that are set up to the entries left. */
    static const uint8_t left[32] = { 255, 255, 255, 255, 255, 255, 255, 255, 255, 255, 255, 255, 255, 255, 255, 255 };
    const uint8_t *end = entries + count / 16 * 16;
    const __m128i limit = _mm_set1_epi8((char)rows);
    __m128i most = limit;
    for (; end - entries >= 64; entries += 64) {
        __m128i first = _mm_max_epu8(one_more(entries), one_more(entries + 16));
        __m128i second = _mm_max_epu8(one_more(entries + 32), one_more(entries + 48));
        most = _mm_max_epu8(most, _mm_max_epu8(first, second));
    }
    for (; entries < end; entries += 16) {
        most = _mm_max_epu8(most, one_more(entries));
    }
    if (count % 16) {
        __m128i mask = _mm_loadu_si128((const __m128i *)(left + 16 - count % 16));
        most = _mm_max_epu8(most, _mm_and_si128(mask, one_more(entries)));
    }
    return _mm_movemask_epi8(_mm_cmpeq_epi8(most, limit)) == 0xffff;
}
#else
static uint8_t one_more(uint8_t entry) {
    return (uint8_t)(entry + 1);
}

static uint8_t larger(uint8_t a, uint8_t b) {
    return a > b ? a : b;
}

/* Four quarters at once, the blocks that are left, the last one: loops that gcc makes vectors of. Not inlined: inside the loop over the places it
 * would unroll the last one instead.
 */
static __attribute__((noinline)) int entries_fit(const uint8_t *entries, size_t count, unsigned rows) {
    const size_t quarter = count / 64 * 16, whole = count / 16 * 16;
    const uint8_t *second = entries + quarter, *third = second + quarter, *fourth = third + quarter, *end = entries + whole;
    const uint8_t left = count % 16;
    uint8_t most = 0, last = 0, k;
    size_t n;
    for (n = 0; n < quarter; n++) {
        uint8_t half = larger(one_more(entries[n]), one_more(second[n]));
        most = larger(most, larger(half, larger(one_more(third[n]), one_more(fourth[n]))));
    }
    for (n = 4 * quarter; n < whole; n++) {
        most = larger(most, one_more(entries[n]));
    }
    if (left) {
        for (k = 0; k < 16; k++) {
            last = larger(last, one_more(end[k]) & (uint8_t)-(k < left));
        }
    }
    return larger(most, last) <= rows;
}
#endif

/* Check 25 of a taken place: its table passes 10, and type and row fit. */
static int place_fits(unsigned state, unsigned row, const uint8_t *table) {
    unsigned actions = word(table + 2), rows = word(table + 4);
    return state <= FULFILLED && word(table) == (state == ENFORCED ? LEMONDARTS_ENFORCED : LEMONDARTS_WATCHED)
        && actions - 1 < LEMONDARTS_MOST_ACTIONS && rows - 1 < LEMONDARTS_MOST_ROWS && word(table + 6) == LEMONDARTS_TABLE_HEADER
        && (state == FULFILLED || row < rows) && entries_fit(table + LEMONDARTS_TABLE_HEADER, actions * rows, rows);
}

uint64_t BY_HAND_ACTION(uint8_t *record, size_t record_length, const uint8_t *area, size_t area_length, size_t action);

uint64_t BY_HAND_ACTION(uint8_t *record, size_t record_length, const uint8_t *area, size_t area_length, size_t action) {
    uint8_t entries[LEMONDARTS_PLACES] = { 0 };
    unsigned actions = 0, denied = 0, fulfilled = 0, place;
    if (record_length < LEMONDARTS_RECORD || area_length < LEMONDARTS_AREA) {
        return LEMONDARTS_SHORT_AREA;
    }
    for (place = 0; place < LEMONDARTS_PLACES; place++) {
        unsigned state = record[2 * place], row = record[2 * place + 1];
        const uint8_t *table = area + place * LEMONDARTS_TABLE;
        if (state != EMPTY) {
            if (!place_fits(state, row, table) || (actions && word(table + 2) != actions)) {
                return LEMONDARTS_BOARD_IMPOSSIBLE;
            }
            actions = word(table + 2);
        }
    }
    if (!actions) {
        return LEMONDARTS_BOARD_EMPTY;
    }
    if (action >= actions) {
        return LEMONDARTS_NO_ACTION;
    }
    for (place = 0; place < LEMONDARTS_PLACES; place++) {
        unsigned state = record[2 * place], row = record[2 * place + 1];
        if (state == ENFORCED || state == WATCHED) {
            unsigned entry = area[place * LEMONDARTS_TABLE + LEMONDARTS_TABLE_HEADER + row * actions + action];
            entries[place] = (uint8_t)entry;
            denied |= (unsigned)(entry == LEMONDARTS_TRIP && state == ENFORCED) << place;
            fulfilled |= (unsigned)(entry == LEMONDARTS_TRIP && state == WATCHED) << place;
        }
    }
    if (denied) {
        place = 0;
        while (!(denied >> place & 1u)) {
            place++;
        }
        return LEMONDARTS_DENIED | (uint64_t)place << 16;
    }
    for (place = 0; place < LEMONDARTS_PLACES; place++) {
        unsigned fulfils = fulfilled >> place & 1u;
        record[2 * place] = (uint8_t)(record[2 * place] + fulfils);
        record[2 * place + 1] = fulfils ? 0 : entries[place];
    }
    return (uint64_t)fulfilled << 16;
}
