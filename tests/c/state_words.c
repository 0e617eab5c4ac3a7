/* The words of a state: reads the octets of nci_state in hex, one state a line, and writes what `state`
 * and then `more` say of it, a line each; an empty line ends a state. */
#include <stdio.h>
#include <string.h>

#include "../../front/line.h"
#include "../../front/state.h"

static void tell(const struct kept *state) {
    static struct line words;
    size_t said = 0;
    do {
        say_to(&words);
        said = say_state(state, said);
        printf("%s\n", words.at);
    } while (words.length > 6 && strcmp(words.at + words.length - 6, ", more") == 0);
    printf("\n");
}

int main(void) {
    char characters[2 * NCI_STATE_SIZE + 2];
    while (fgets(characters, sizeof characters, stdin) != NULL) {
        static struct octets octets;
        static struct kept state;
        struct text line = {characters, strcspn(characters, "\n")};
        if (!read_octets(&octets, line) || octets.length != NCI_STATE_SIZE)
            return 1;
        state.length = octets.length;
        memcpy(state.at, octets.at, octets.length);
        tell(&state);
    }
    return 0;
}
