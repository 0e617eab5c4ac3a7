/* The keys card and help. */
#ifndef HELP_H
#define HELP_H

#include "answer.h"

void answer_card(struct answer *a, const struct key *key, struct text rest);
void answer_help(struct answer *a, const struct key *key, struct text rest);

#endif
