#include "parameter.h"

#include "nci_bench.h"

/* ---- the names (003, Table 138) */

/* In brief the technology stands last, as in that of a mode, and V is a word: it sounds as B. */
static const struct parameter parameters[] = {
    {NCI_PA_BAIL_OUT, "PA_BAIL_OUT", "bail out A"},
    {NCI_PA_DEVICES_LIMIT, "PA_DEVICES_LIMIT", "limit A"},
    {NCI_PB_AFI, "PB_AFI", "AFI"},
    {NCI_PB_BAIL_OUT, "PB_BAIL_OUT", "bail out B"},
    {NCI_PB_SENSB_REQ_PARAM, "PB_SENSB_REQ_PARAM", "sens B"},
    {NCI_PB_DEVICES_LIMIT, "PB_DEVICES_LIMIT", "limit B"},
    {NCI_PF_BIT_RATE, "PF_BIT_RATE", "bit rate F"},
    {NCI_PF_BAIL_OUT, "PF_BAIL_OUT", "bail out F"},
    {NCI_PF_DEVICES_LIMIT, "PF_DEVICES_LIMIT", "limit F"},
    {NCI_PI_B_H_INFO, "PI_B_H_INFO", "H info"},
    {NCI_PI_BIT_RATE, "PI_BIT_RATE", "bit rate ISO"},
    {NCI_PN_NFC_DEP_PSL, "PN_NFC_DEP_PSL", "PSL"},
    {NCI_PN_ATR_REQ_CONFIG, "PN_ATR_REQ_CONFIG", "ATR request"},
    {NCI_PV_DEVICES_LIMIT, "PV_DEVICES_LIMIT", "limit vicinity"},
    {NCI_PACM_BIT_RATE, "PACM_BIT_RATE", "bit rate active"},
};

enum { PARAMETERS = sizeof parameters / sizeof *parameters };

const struct parameter *parameter_at(size_t i) { return i < PARAMETERS ? &parameters[i] : NULL; }

const struct parameter *parameter_of(unsigned id) {
    for (size_t i = 0; i < PARAMETERS; i++)
        if (parameters[i].id == id)
            return &parameters[i];
    return NULL;
}

bool add_id(struct octets *to, struct text word) {
    for (size_t i = 0; i < PARAMETERS; i++) {
        if (is_named(word, parameters[i].name)) {
            add(to, parameters[i].id);
            return true;
        }
    }
    return add_word(to, word);
}

const struct parameter *parameter_named(struct text word) {
    static struct octets id;
    id.length = 0;
    return add_id(&id, word) && id.length == 1 ? parameter_of(id.at[0]) : NULL;
}

/* ---- lists */

/* Without its count a list is cut short, as if a parameter were missing. */
struct list list_at(const uint8_t *octets, size_t length, bool values) {
    struct list list = {octets, 0, 1, values};
    if (length > 0) {
        list.at = octets + 1;
        list.octets = length - 1;
        list.left = octets[0];
    }
    return list;
}

bool next_listed(struct list *list, struct listed *listed) {
    size_t head = list->values ? 2 : 1, length;
    if (list->left == 0 || list->octets < head)
        return false;
    length = list->values ? list->at[1] : 0;
    if (list->octets - head < length)
        return false;
    listed->id = list->at[0];
    listed->value = list->at + head;
    listed->length = length;
    list->at += head + length;
    list->octets -= head + length;
    list->left--;
    return true;
}

bool is_whole(struct list list) {
    struct listed listed;
    while (next_listed(&list, &listed))
        ;
    return list.left == 0 && list.octets == 0;
}
