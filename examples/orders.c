/* Stored order lines: each converted, and what is an order afterwards run. */
#include <inttypes.h>
#include <stdio.h>
#include <string.h>

#include "gwerniloc.h"

/* What a call printed; a buffer as long as these two is never too short. */
static size_t print(const char *name, const uint8_t *text, gw_number_result a)
{
    if (a.refusal != 0) {
        printf("%s: refused %u place %" PRIu64 "\n", name, GW_REFUSAL_NUMBER(a.refusal), GW_REFUSAL_PLACE(a.refusal));
        return 0;
    }
    printf("%s: ", name);
    fwrite(text, 1, a.value, stdout);
    return a.value;
}

int main(void)
{
    /* Filled; left empty, which meant 2; left empty where 2 is above the highest level; without its LF. */
    static const char *const stored[] = {"1042;7;3;1;4;3;1\n", "1043;7;3;1;4;3;\n", "1044;7;3;1;1;3;\n", "1045;7;3;1;4;3;"};
    static uint8_t line[GW_MOST_ORDER_LINE], text[GW_MOST_ORDER_OUTPUT];

    for (size_t i = 0; i < sizeof stored / sizeof *stored; i++) {
        const uint8_t *bytes = (const uint8_t *)stored[i];
        size_t length = strlen(stored[i]);
        print("as it is", text, gw_order(bytes, length, text, sizeof text));
        size_t converted = print("converted", line, gw_convert(bytes, length, line, sizeof line));
        /* A refusal begins with an r, an order line with a digit. */
        if (line[0] != 'r')
            print("and run", text, gw_order(line, converted, text, sizeof text));
    }
    return 0;
}
