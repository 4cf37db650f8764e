/* What the programs sign_in and upload have in common: the box's settings, its log, and the words for how it went. */
#ifndef PROGRAM_H
#define PROGRAM_H

#include "sign_in.h"

#define SETTINGS_WORDS 6
#define SETTINGS_USAGE "USER DOMAIN WORKSTATION TARGET WANTED SETTINGS"

/* Settings from the six words of the command, chance from the system, the password as a line of standard input. Answers
 * 1, or 0 where one can't be had, which is told on standard output. */
int program_start(char **words, struct settings *box, struct radio *radio);

/* What sign_in answered, as a line of standard output where it isn't 0. Answers the program's status. */
int program_tell(uint64_t answer);

#endif
