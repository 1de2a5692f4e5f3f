/* The names to print: each number of the headers that is to have one has that which stands in its header, and no other
 * number has any. host/run takes the rows below out of the headers, by host/names.awk. */
#include "support.h"
#include "sctp_channels.h"

typedef const char *namer(uint32_t number);

static const struct row {
    namer *call;
    uint32_t number;
    const char *name;
} rows[] = {
#include "names_of_headers.h"
};

#define ROWS (sizeof rows / sizeof *rows)

/* The name of a number by the headers; NULL if it has none. */
static const char *expected(namer *call, uint32_t number) {
    for (const struct row *row = rows; row < rows + ROWS; row++)
        if (row->call == call && row->number == number)
            return row->name;
    return NULL;
}

static void try_number(namer *call, uint32_t number) {
    const char *name = call(number), *of_header = expected(call, number);
    tried = of_header ? of_header : "a number without a name";
    CHECK(of_header ? strcmp(name, of_header) == 0 : strncmp(name, "unknown ", 8) == 0);
}

/* Each of the eight calls, with what it says of a number that has no name. */
static void no_name(void) {
    CHECK(strcmp(sctp_assoc_code_name(UINT32_MAX), "unknown code") == 0);
    CHECK(strcmp(sctp_assoc_fate_name(UINT32_MAX), "unknown fate") == 0);
    CHECK(strcmp(sctp_assoc_event_name(UINT32_MAX), "unknown event") == 0);
    CHECK(strcmp(sctp_assoc_reason_name(UINT32_MAX), "unknown reason") == 0);
    CHECK(strcmp(sctp_assoc_end_name(UINT32_MAX), "unknown end") == 0);
    CHECK(strcmp(sctp_channels_code_name(UINT32_MAX), "unknown code") == 0);
    CHECK(strcmp(sctp_channels_event_name(UINT32_MAX), "unknown event") == 0);
    CHECK(strcmp(sctp_channels_state_name(UINT32_MAX), "unknown state") == 0);
}

int main(void) {
    CHECK(ROWS > 90);
    no_name();
    for (const struct row *row = rows; row < rows + ROWS; row++) {
        try_number(row->call, row->number);
        for (uint32_t number = 0; number < 100; number++)
            try_number(row->call, number);
    }
    puts("names: ok");
    return 0;
}
