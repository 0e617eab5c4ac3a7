/* What is long is said in breaths: clauses, as many as are heard in 8 seconds, and the rest by the
 * key more. */
#ifndef BREATH_H
#define BREATH_H

#include <stdbool.h>
#include <stddef.h>

/* Says a clause by its number; false, with nothing said, past the last. */
typedef bool say_clause(const void *of, size_t number);

/* Clauses from one on, at least one of them, with ", more" where some are left and "no more" where
 * none was. Gives the number of the clause that comes next. */
size_t say_breath(say_clause *clause, const void *of, size_t from);

#endif
