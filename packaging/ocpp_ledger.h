/* The ledger of ocpp_board as a library: the text that a replay writes for a script, and what a station's message asks
   for. What a script's lines say and what each writes is in docs/formats.md.

   No call keeps anything, starts a thread or takes a lock, so any threads may call at once. A call takes memory by
   malloc and realloc, and gives all of it back. No pointer may be null, also where a length is 0; text, used, seq and
   work overlap nothing else. Don't call from a signal handler, nor in the forked child of a process with threads. */
#ifndef OCPP_LEDGER_H
#define OCPP_LEDGER_H

#include <stddef.h>
#include <stdint.h>

#ifdef __cplusplus
extern "C" {
#endif

/* The version of these calls that this header describes. Calls and statuses that are added leave it as it is. */
#define OCPP_LEDGER_VERSION 1

/* The version of these calls that the library has. */
uint32_t ocpp_ledger_version(void);

/* What ocpp_ledger_answer returns. */
enum {
    OCPP_LEDGER_OK = 0,        /* the text is at the front of the buffer, and the bytes behind it are as they were */
    OCPP_LEDGER_TOO_SMALL = 1, /* the text has more bytes than the buffer; the buffer is as it was */
    OCPP_LEDGER_TOO_LONG = 2,  /* the script has more than 1 GiB; the buffer is as it was */
    OCPP_LEDGER_NO_MEMORY = 3  /* there was no memory; the buffer is as it was */
};

/* Answers a whole script. After OCPP_LEDGER_OK and OCPP_LEDGER_TOO_SMALL *used is how many bytes the text has, otherwise
   0. *work is a count of the caller's, which the call raises by the looks that it took at register levels; it stays at
   2^64 - 1 once it is there. */
uint32_t ocpp_ledger_answer(const uint8_t *script, size_t script_length,
                            uint8_t *text, size_t room, size_t *used, uint64_t *work);

/* What ocpp_message_asks returns. */
enum {
    OCPP_MESSAGE_SILENT = 0,   /* the message is an answer of the station: it gets no reply */
    OCPP_MESSAGE_REPLY = 1,    /* the message has a ready reply, which is at the front of the buffer */
    OCPP_MESSAGE_EVENT = 2,    /* the message delivers an event: the id of its transaction, as boards show it, is at the
                                  front of the buffer, and its number in *seq */
    OCPP_MESSAGE_MISTAKEN = 3, /* no UTF-8, a moment outside the years 2000 to 2099, or less room than 512 bytes */
    OCPP_MESSAGE_NO_MEMORY = 4 /* there was no memory */
};

/* Says what a message asks for at a moment, in nanoseconds since 1970. *used is how many bytes of the buffer say so. */
uint32_t ocpp_message_asks(const uint8_t *message, size_t message_length, uint64_t now,
                           uint8_t *text, size_t room, size_t *used, uint32_t *seq);

#ifdef __cplusplus
}
#endif

#endif
