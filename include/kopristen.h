/* Kopristen for C: libkopristen.a, which `host/library` makes for the machine at hand, printing the folder that has it.
 *
 * Each function takes any bytes, returns, and is proved to answer and to leave what crates/meaning defines; docs/FORMATS.md says it in
 * words. None allocates, keeps anything between calls or calls the system; one takes at most 24 KiB of stack and may be called from any
 * thread.
 *
 * The caller sees to this, since nothing tests it:
 * - a pointer and its length name bytes that may be read, and of a buffer written, until the call returns;
 * - no pointer is null, even at length 0;
 * - a buffer overlaps nothing else that is lent to the call. Inputs may overlap each other.
 */
#ifndef KOPRISTEN_H
#define KOPRISTEN_H

#include <stddef.h>
#include <stdint.h>

#ifdef __cplusplus
extern "C" {
#endif

/* Limits of a register: its sources, which are also the most of a report, its lines, the bytes of all its names together, and
 * those of one name. */
#define KOPRISTEN_MOST_SOURCES 512
#define KOPRISTEN_MOST_LINES 1024
#define KOPRISTEN_MOST_NAME_BYTES 16384
#define KOPRISTEN_LONGEST_NAME 64

/* Lengths in bytes: of the longest register, of a report of so many sources, and of the longest report; and one that
 * no report's text exceeds. */
#define KOPRISTEN_MOST_REGISTER_BYTES 45088
#define KOPRISTEN_REPORT_BYTES(sources) (56 + 40 * (size_t)(sources))
#define KOPRISTEN_MOST_REPORT_BYTES KOPRISTEN_REPORT_BYTES(KOPRISTEN_MOST_SOURCES)
#define KOPRISTEN_MOST_TEXT_BYTES 38994

/* Stock cards: the most in a call; lengths in bytes of so many cards and of the most, and of their amounts. */
#define KOPRISTEN_MOST_CARDS 1024
#define KOPRISTEN_CARDS_BYTES(cards) (32 * (size_t)(cards))
#define KOPRISTEN_MOST_CARDS_BYTES KOPRISTEN_CARDS_BYTES(KOPRISTEN_MOST_CARDS)
#define KOPRISTEN_AMOUNTS_BYTES(cards) (8 * (size_t)(cards))
#define KOPRISTEN_MOST_AMOUNTS_BYTES KOPRISTEN_AMOUNTS_BYTES(KOPRISTEN_MOST_CARDS)

/* Acceptance is number 0, place 0 and a length. A refusal has its number and place of the table in docs/FORMATS.md, where sources,
 * lines and cards are counted from 0, and length 0. */
struct kopristen_answer {
    uint32_t number;
    uint64_t place;
    uint64_t length;
};

/* A part of a register. Names are never empty, so length 0 says that there is none; its offset is 0 then. */
struct kopristen_part {
    uint64_t offset;
    uint64_t length;
};

/* A part of one of two registers: which is 1 for the plant's and 2 for its contractor's. Where there is none it is 1, 0, 0. */
struct kopristen_found {
    uint32_t which;
    uint64_t offset;
    uint64_t length;
};

/* Calculates the report of a register and writes it to the front of the buffer; bytes behind the answered length stay.
 * Refuses with 1 to 8, and then the buffer stays as it was. KOPRISTEN_REPORT_BYTES of the register's sources are room enough, and
 * KOPRISTEN_MOST_REPORT_BYTES always are. */
struct kopristen_answer kopristen_calculate(const uint8_t *register_bytes, size_t register_length, uint8_t *report, size_t room);

/* Writes the report of all entries of two reports of one year, likewise. Refuses with 9 to 12 and 8. */
struct kopristen_answer kopristen_combine(const uint8_t *first, size_t first_length, const uint8_t *second, size_t second_length,
                                          uint8_t *report, size_t room);

/* Writes a report without the entry of a number, likewise. Refuses with 9, 13 and 8. */
struct kopristen_answer kopristen_remove(const uint8_t *report, size_t report_length, uint32_t number, uint8_t *result, size_t room);

/* Whether a report is well-formed: accepted with the report's own length, or refused with 9. It writes nothing. */
struct kopristen_answer kopristen_check(const uint8_t *report, size_t report_length);

/* Writes a report as text, a line for its totals and one for each entry, without a 0 behind it. Refuses with 9 and 8;
 * place is then the length needed, so a call with length 0 asks for it. KOPRISTEN_MOST_TEXT_BYTES are always room enough. */
struct kopristen_answer kopristen_text(const uint8_t *report, size_t report_length, uint8_t *text, size_t room);

/* Where the name of a number's source stands in a register. There is none where calculation would refuse the register with 1 to 4,
 * and where the number is absent. */
struct kopristen_part kopristen_name(const uint8_t *register_bytes, size_t register_length, uint32_t number);

/* The same over two registers. There is none also where the number stands in both. */
struct kopristen_found kopristen_name_of_two(const uint8_t *plant, size_t plant_length, const uint8_t *contractor,
                                             size_t contractor_length, uint32_t number);

/* Works out the amounts of stock cards and writes them to the front of the buffer, in the order of the cards; bytes behind the
 * answered length stay. A card is four 8-byte numbers, little-endian, in thousandths of the card's unit: received, dispatched, opening
 * stock, closing stock. Its amount is received less dispatched, plus opening, less closing: one such number, and the quantity Q of a
 * line. Zero cards are accepted with length 0. Refuses with 14, 15 and 8, and then the buffer stays as it was.
 * KOPRISTEN_AMOUNTS_BYTES of the cards are room enough, and KOPRISTEN_MOST_AMOUNTS_BYTES always are. */
struct kopristen_answer kopristen_amounts(const uint8_t *cards, size_t cards_length, uint8_t *amounts, size_t room);

#ifdef __cplusplus
}
#endif

#endif
