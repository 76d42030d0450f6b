/* Answers a script from standard input, as `ocpp_board replay` does:
       gcc ledger.c $(pkgconf --cflags --libs ocpp_ledger) -o ledger && ./ledger < first.script */
#include <ocpp_ledger.h>
#include <stdio.h>
#include <stdlib.h>

int main(void) {
    size_t room = 1 << 20, length = 0, used = 0, more;
    uint64_t work = 0;
    uint8_t *script = malloc(room);
    while (script && (more = fread(script + length, 1, room - length, stdin)) > 0)
        if ((length += more) == room) script = realloc(script, room *= 2);
    if (!script) return 1;
    uint8_t *text = malloc(1); /* No pointer may be null, even for an empty buffer. */
    if (!text || ocpp_ledger_answer(script, length, text, 0, &used, &work) > OCPP_LEDGER_TOO_SMALL) return 1;
    if (!(text = realloc(text, used + 1))) return 1;
    if (ocpp_ledger_answer(script, length, text, used, &used, &work) != OCPP_LEDGER_OK) return 1;
    return fwrite(text, 1, used, stdout) == used ? 0 : 1;
}
