/* Answers the calls of a file of cases on standard input, as host/reference writes it and describes it (src/cases/file.rs). */
#include <inttypes.h>
#include <stdio.h>
#include <stdlib.h>
#include <string.h>

#include "kopristen.h"

enum { CALCULATE = 1, COMBINE, REMOVE, CHECK, TEXT, NAME, NAME_OF_TWO, AMOUNTS };
enum { MOST = KOPRISTEN_MOST_REGISTER_BYTES + 1, NUMBERS = 20, LABEL = 44 };

static uint8_t first[MOST], second[MOST], buffer[MOST];

static uint32_t number_at(const uint8_t *header, int place) {
    return header[place] | header[place + 1] << 8 | header[place + 2] << 16 | (uint32_t)header[place + 3] << 24;
}

static void read_exactly(void *bytes, size_t length) {
    if (length > MOST || fread(bytes, 1, length, stdin) != length) {
        fprintf(stderr, "cases: the file breaks off\n");
        exit(2);
    }
}

static void put_buffer(size_t text, size_t room) {
    fwrite(buffer, 1, text, stdout);
    for (size_t i = text; i < room; i++) {
        int last = i + 1 == room || (i - text) % 8 == 7;
        printf(last ? "%02x\n" : "%02x", buffer[i]);
    }
}

static struct kopristen_answer answer_of(int entry, size_t one, size_t other, uint32_t number, size_t room) {
    switch (entry) {
    case CALCULATE: return kopristen_calculate(first, one, buffer, room);
    case COMBINE: return kopristen_combine(first, one, second, other, buffer, room);
    case REMOVE: return kopristen_remove(first, one, number, buffer, room);
    case CHECK: return kopristen_check(first, one);
    case AMOUNTS: return kopristen_amounts(first, one, buffer, room);
    default: return kopristen_text(first, one, buffer, room);
    }
}

static void make_call(const uint8_t *header) {
    int entry = header[0];
    uint32_t number = number_at(header, 4);
    size_t room = number_at(header, 8), one = number_at(header, 12), other = number_at(header, 16);
    size_t text = 0;
    read_exactly(first, one);
    read_exactly(second, other);
    memset(buffer, header[1], sizeof buffer);
    printf("%.*s", LABEL, (const char *)header + NUMBERS);
    if (entry == NAME) {
        struct kopristen_part part = kopristen_name(first, one, number);
        printf(" %" PRIu64 " %" PRIu64 "\n", part.offset, part.length);
    } else if (entry == NAME_OF_TWO) {
        struct kopristen_found found = kopristen_name_of_two(first, one, second, other, number);
        printf(" %" PRIu32 " %" PRIu64 " %" PRIu64 "\n", found.which, found.offset, found.length);
    } else {
        struct kopristen_answer answer = answer_of(entry, one, other, number, room);
        printf(" %" PRIu32 " %" PRIu64 " %" PRIu64 "\n", answer.number, answer.place, answer.length);
        text = entry == TEXT ? answer.length : 0;
    }
    put_buffer(text, room);
}

int main(void) {
    uint8_t header[NUMBERS + LABEL];
    while (fread(header, 1, sizeof header, stdin) == sizeof header) {
        make_call(header);
    }
    return 0;
}
