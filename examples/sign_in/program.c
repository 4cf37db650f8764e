#include "program.h"

#include <locale.h>
#include <stdio.h>
#include <stdlib.h>
#include <string.h>
#include <time.h>

#include "names.h"

static int tell_refused(FILE *to, uint64_t answer)
{
    if (!DIALTABLE_IS_REFUSED(answer)) return 0;
    fprintf(to, "refused %u field=%u at=%llu: %s\n", DIALTABLE_NUMBER(answer), DIALTABLE_FIELD(answer),
            (unsigned long long)DIALTABLE_PLACE(answer), dialtable_refusal_text(DIALTABLE_NUMBER(answer)));
    return 1;
}

void log_it(const uint8_t *line, uint64_t line_len)
{
    if (!tell_refused(stderr, line_len)) fwrite(line, 1, (size_t)line_len, stderr);
}

static int read_password(struct radio *radio)
{
    char text[RADIO_NAME_ROOM];
    long len;

    if (fgets(text, sizeof text, stdin) == NULL || strchr(text, '\n') == NULL) return 0;
    *strchr(text, '\n') = 0;
    len = name_encode(text, 1, radio->password, sizeof radio->password);
    radio->password_len = len < 0 ? 0 : (size_t)len;
    return len >= 0;
}

int program_start(char **words, struct settings *box, struct radio *radio)
{
    if (setlocale(LC_CTYPE, "C.UTF-8") == NULL || !radio_draw(radio) || !read_password(radio)) {
        puts("no sign-in: there is no password that fits, no chance, or no locale C.UTF-8");
        return 0;
    }
    box->user = words[0];
    box->domain = words[1];
    box->workstation = words[2];
    box->target = words[3];
    box->wanted = (uint32_t)strtoul(words[4], NULL, 0);
    box->settings = (uint32_t)strtoul(words[5], NULL, 0);
    box->clock = ((uint64_t)time(NULL) + 11644473600u) * 10000000u; /* tenths of microseconds since 1601 */
    return 1;
}

int program_tell(uint64_t answer)
{
    if (answer == NAME_UNSENT) puts("a name can't be sent whole");
    else if (answer == NO_RESPONSE) puts("the radio module has no response");
    else if (answer == NOT_SENT) fputs("the AUTHENTICATE can't be sent: standard output takes no more\n", stderr);
    else if (answer == NOT_TAKEN) puts("the server doesn't take it");
    else (void)tell_refused(stdout, answer);
    return answer != 0;
}
