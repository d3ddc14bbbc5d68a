/* A register on standard input, its report's text on standard output: the shortest use of the library from C. */
#include <stdio.h>

#include "kopristen.h"

int main(void) {
    /* One byte more than the longest register, so that a longer input is refused. */
    static uint8_t input[KOPRISTEN_MOST_REGISTER_BYTES + 1];
    static uint8_t report[KOPRISTEN_MOST_REPORT_BYTES], text[KOPRISTEN_MOST_TEXT_BYTES];
    size_t length = fread(input, 1, sizeof input, stdin);
    struct kopristen_answer made = kopristen_calculate(input, length, report, sizeof report);
    if (made.number != 0) {
        printf("refused %u %lu\n", made.number, (unsigned long)made.place);
        return 1;
    }
    struct kopristen_answer written = kopristen_text(report, made.length, text, sizeof text);
    fwrite(text, 1, written.length, stdout);
    return written.number != 0;
}
