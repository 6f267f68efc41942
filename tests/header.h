/* What the parts of tests/header share. */
#include "../include/ashlar.h"

/* one line of the test's output */
void check(const char *name, bool good);

/* the refusals, the answers of push and those of events that were seen, a bit for each */
extern unsigned refusals, answers, events;

/* tests/header_fields.c: records and entries by their fields, steps, and what is written */
void values_by_fields(void);

/* tests/header_tables.c: both tables by today's names of their calls */
void tables_by_todays_names(void);
