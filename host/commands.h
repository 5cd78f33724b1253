/* Drafts of the commands of 003 table 8, with addresses and masks worth trying. */
#ifndef COMMANDS_H
#define COMMANDS_H

#include "draft.h"

struct draft draft_nop(struct making *m);
struct draft draft_active(struct making *m, uint64_t bank);
struct draft draft_read(struct making *m, uint64_t bank, bool auto_precharge);
struct draft draft_write(struct making *m, uint64_t bank, bool auto_precharge);
struct draft draft_precharge(struct making *m, uint64_t bank);
struct draft draft_precharge_all(struct making *m);
struct draft draft_refresh(struct making *m);
struct draft draft_burst_terminate(struct making *m);
struct draft draft_load_mode(struct making *m);          /* a word that 01 names */
struct draft draft_reserved_mode(struct making *m);      /* mostly one that it does not */
struct draft draft_any(struct making *m);                /* any command, bank and address */

/* A bank that is open (closed), the watched one more often; any bank where
 * there is none such. */
uint64_t some_open_bank(struct making *m);
uint64_t some_closed_bank(struct making *m);
bool some_open(const struct making *m);

/* The command that the walk goes on with, fitting what is open. */
struct draft draft_next(struct making *m);

#endif
