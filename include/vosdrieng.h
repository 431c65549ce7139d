/*
** Vosdrieng: an HTTP cache in a program.
**
** The cache decides and stores; the program brings the bytes. A program hands in what happens, one call an event: a consumer
** starts with its request, polls, or leaves; the head of an exchange came, a piece of its body, its end or a fault. Each event is
** answered by acts: open this request at the origin, ask it for its next piece, show the consumer this head, give it these bytes.
** The cache opens no socket and no file, reads no clock and starts no thread.
**
** docs/RULES.md says which acts are due, docs/FORMATS.md has the same events and acts as text, and docs/PROOFS.md what is proved.
**
**     #define TEXT(text) (const uint8_t *)(text), strlen(text)
**
**     vosdrieng_cache cache = {0};
**     vosdrieng_act act;
**     if (vosdrieng_new(&cache, 16777216, 268435456) != VOSDRIENG_OK) return 1;
**     vosdrieng_start(&cache, now, 1, TEXT("GET"), VOSDRIENG_NORMAL, TEXT(url), TEXT(""));
**     vosdrieng_poll(&cache, now, 1, 65536);
**     while (vosdrieng_next_act(&cache, &act)) carry_out(&cache, &act);
**     vosdrieng_free(&cache);
**
** POINTERS. No pointer may be null, not even one to no bytes: pass "" with the length 0. What is pointed to belongs to the caller,
** is read or written in the call alone, and is kept by nobody. Two pointers of one call point to memory that doesn't overlap,
** unless both are only read. Bytes are any bytes, and no zero byte ends them.
**
** THREADS. Two handles share nothing, so each thread may have caches of its own. A handle may go from thread to thread, as long as one call
** on it has returned before the next begins, ordered by a lock, by a thread's start or by its join. No call may be made from a signal
** handler. In the child of a fork malloc has to work, and a handle on which another thread was amid a call may not be used there.
**
** MEMORY comes from the program's malloc, realloc and free. No call aborts, prints, or jumps out.
*/
#ifndef VOSDRIENG_H
#define VOSDRIENG_H

#include <stddef.h>
#include <stdint.h>

#ifdef __cplusplus
extern "C" {
#endif

/*
** THE VERSION
**
** VOSDRIENG_VERSION_NUMBER is 1,000,000 * major + 1,000 * minor + patch of this header, and vosdrieng_version() that of the
** library. Below 1.0.0 the two must be equal. From then on the library may be newer within one major version.
*/
#define VOSDRIENG_VERSION "0.1.0"
#define VOSDRIENG_VERSION_NUMBER 1000
uint32_t vosdrieng_version(void);

/*
** A HANDLE OF A CACHE
**
** The caller keeps it, by value, and passes its address. Set it to zero before its first call. Its members are the library's: they
** are neither read nor written by anybody else. Where they were written, or the handle wasn't zero at first, anything may happen.
** A copy of a handle is no handle: after a call with one of the two, the other may not be used.
*/
typedef struct vosdrieng_cache {
    uint64_t mark;
    void *at;
} vosdrieng_cache;

/*
** WHAT CALLS ANSWER
**
** The calls that return a `vosdrieng_answer` return one of these. Of several causes but VOSDRIENG_NO_MEMORY the one with the lowest
** number is answered. VOSDRIENG_NO_MEMORY may come in place of any. After any answer to an event but VOSDRIENG_OK and
** VOSDRIENG_NO_MEMORY nothing has changed: a call that is refused counts for nothing, and the acts of the event before it can still
** be taken.
**
** An event that the cache denies is no refused call: it is answered VOSDRIENG_OK, and its one act is VOSDRIENG_ACT_DENIED. It counts
** as an event: its moment is the last one then, and its act replaces those before.
*/
typedef uint32_t vosdrieng_answer;

/* The call did what it says. */
#define VOSDRIENG_OK 0
/* The handle has no cache: none was made, it was freed, or making it failed. */
#define VOSDRIENG_NO_HANDLE 1
/* Memory was refused. After an event or a text was answered so, each later event, each text and vosdrieng_image are answered so too. Then no
** act is told, none has bytes, there is no report, and vosdrieng_moment and vosdrieng_live are 0. vosdrieng_free works, and so does making a new cache with the handle. Where
** only vosdrieng_image was answered so, what the cache has stays. */
#define VOSDRIENG_NO_MEMORY 2
/* The cache has taken 2^59 events, or 2^60 bytes of pieces or of a text. */
#define VOSDRIENG_EXHAUSTED 3
/* The moment is before that of the last event, or is 2^62 or later. */
#define VOSDRIENG_BAD_MOMENT 4
/* A number or a length is outside of its limits. Each call says which it has. */
#define VOSDRIENG_LIMIT 5
/* The method is no token of 1 to 15 bytes, or is CONNECT. */
#define VOSDRIENG_BAD_METHOD 6
/* The target is no http or https URL of 1 to 8,192 bytes, without a fragment, in the spelling that the URL Standard gives it. */
#define VOSDRIENG_BAD_TARGET 7
/* The bytes are no lines of fields, or of too many or too large ones: see FIELDS. */
#define VOSDRIENG_BAD_FIELDS 8
/* Consumers are live: they can end, or be cancelled. */
#define VOSDRIENG_LIVE 9
/* The bytes are no image, or have more behind it. */
#define VOSDRIENG_BAD_IMAGE 10
/* No cache may begin with what the image has: an item, the moment or a number isn't one that a cache leaves, or an item has more
** bytes than `max_entry`. */
#define VOSDRIENG_BAD_CONTENT 11
/* What the image has weighs more than `max_total`. */
#define VOSDRIENG_FULL 12
/* A text comes behind an event of another call. */
#define VOSDRIENG_LATE 13
/* A line of the text is refused. */
#define VOSDRIENG_BAD_TEXT 14

/*
** FIELDS cross as lines, each a name, a colon, a space, a value and a line feed:
**
**     "accept: text/html\nrange: bytes=0-99\n"
**
** A name is a token, in any case; the cache lowers it. A value may be empty; it has no control byte but tab, no space or tab at an
** end, and at most 8,192 bytes. Of one name there may be several lines, and names stand in any order. There are at most 64
** lines, and their names and values have at most 32,768 bytes in all. No lines are no bytes. The last line ends by a line feed too, and
** a carriage return is refused. The library tells fields so too, in
** lower case and sorted by name, those of one name in the order in which they came.
*/

/*
** BEGINNING AND ENDING
**
** vosdrieng_new makes an empty cache in memory. No stored body has more than `max_entry` bytes, and the store in all weighs at most
** `max_total`: the bytes of all bodies, and 32,768 for each.
** Answers: OK, NO_MEMORY.
**
** vosdrieng_open makes a cache with what an image has, whole and nothing behind it. Its moment, the number of the last consumer
** that started, and that of the next exchange are those of the image.
** Answers: OK, NO_MEMORY, BAD_IMAGE, BAD_CONTENT, FULL.
**
** Both let the cache go that the handle had, whatever they answer, and leave it without one unless they answer OK.
**
** vosdrieng_free lets the cache and all its memory go, whoever is live. The handle has none then, and may be freed again.
*/
vosdrieng_answer vosdrieng_new(vosdrieng_cache *cache, uint64_t max_entry, uint64_t max_total);
vosdrieng_answer vosdrieng_open(vosdrieng_cache *cache, uint64_t max_entry, uint64_t max_total,
                                const uint8_t *image, size_t image_len);
void vosdrieng_free(vosdrieng_cache *cache);

/*
** EVENTS
**
** Each is at a moment `now`, in whole seconds since 1970, that isn't before the one of the last event. Numbers of consumers and of
** exchanges are below 2^62. An event that is answered OK replaces the acts of the one before it.
**
** vosdrieng_start: a consumer begins with its request. The caller numbers consumers, each above all before it: from 1 on in a new
** cache, and behind vosdrieng_open above the last consumer of the image. `mode` is one of
** VOSDRIENG_NORMAL and so on.
** Answers: OK, NO_HANDLE, NO_MEMORY, EXHAUSTED, BAD_MOMENT, LIMIT (`consumer`, `mode`), BAD_METHOD, BAD_TARGET, BAD_FIELDS.
**
** vosdrieng_poll: the consumer asks for at most `want` bytes, up to 65,536. Where it is to wait, VOSDRIENG_ACT_PENDING tells what it
** waits for and for whom. Poll it again once that came. One that waits for another consumer is polled as well 20 seconds after it started
** or last started over: then it goes past the store.
** Answers: OK, NO_HANDLE, NO_MEMORY, EXHAUSTED, BAD_MOMENT, LIMIT (`consumer`, `want`).
**
** vosdrieng_cancel: the consumer leaves.
** vosdrieng_end: the body of the exchange came to its end. vosdrieng_fault: the exchange broke, its head never came, or its head was
** refused.
** Answers: OK, NO_HANDLE, NO_MEMORY, EXHAUSTED, BAD_MOMENT, LIMIT (the number).
**
** vosdrieng_doom: what is stored for the target is not to be used any more.
** Answers: OK, NO_HANDLE, NO_MEMORY, EXHAUSTED, BAD_MOMENT, BAD_TARGET.
**
** vosdrieng_head: the head of the answer to the exchange came. `status` is from 200 to 599.
** Answers: OK, NO_HANDLE, NO_MEMORY, EXHAUSTED, BAD_MOMENT, LIMIT (`exchange`, `status`), BAD_FIELDS.
**
** vosdrieng_piece: bytes of the body of the exchange came, at most 65,536. They are copied.
** Answers: OK, NO_HANDLE, NO_MEMORY, EXHAUSTED, BAD_MOMENT, LIMIT (`exchange`, `len`).
*/
#define VOSDRIENG_NORMAL 0   /* as RFC 9111 allows a private cache */
#define VOSDRIENG_VALIDATE 1 /* never without a validation */
#define VOSDRIENG_BYPASS 2   /* past what is stored, which is forgotten; the answer may be stored */
#define VOSDRIENG_SKIP 3     /* also a stale answer */
#define VOSDRIENG_ONLY 4     /* only from the cache */
#define VOSDRIENG_DISABLE 5  /* as if there were no cache */

vosdrieng_answer vosdrieng_start(vosdrieng_cache *cache, uint64_t now, uint64_t consumer,
                                 const uint8_t *method, size_t method_len, uint32_t mode,
                                 const uint8_t *target, size_t target_len,
                                 const uint8_t *fields, size_t fields_len);
vosdrieng_answer vosdrieng_poll(vosdrieng_cache *cache, uint64_t now, uint64_t consumer, uint32_t want);
vosdrieng_answer vosdrieng_cancel(vosdrieng_cache *cache, uint64_t now, uint64_t consumer);
vosdrieng_answer vosdrieng_doom(vosdrieng_cache *cache, uint64_t now, const uint8_t *target, size_t target_len);
vosdrieng_answer vosdrieng_head(vosdrieng_cache *cache, uint64_t now, uint64_t exchange, uint32_t status,
                                const uint8_t *fields, size_t fields_len);
vosdrieng_answer vosdrieng_piece(vosdrieng_cache *cache, uint64_t now, uint64_t exchange,
                                 const uint8_t *bytes, size_t len);
vosdrieng_answer vosdrieng_end(vosdrieng_cache *cache, uint64_t now, uint64_t exchange);
vosdrieng_answer vosdrieng_fault(vosdrieng_cache *cache, uint64_t now, uint64_t exchange);

/*
** ACTS
**
** vosdrieng_next_act tells the next act of the last event that was answered OK, in order, and returns 1; or it returns 0, and
** `act` is as it was: all were told, there was no event, an event was answered NO_MEMORY, or the handle has no cache.
**
** vosdrieng_act_bytes copies the first `room` of the bytes of the act that was told last, or all where there are fewer, and returns
** how many it copied. They can be copied again until another act is told, or an event is answered OK or NO_MEMORY. act.length says how
** many there are. Before an act is told there are none, and none behind NO_MEMORY.
**
** Neither needs memory. What an act doesn't have is 0.
**
** kind               | detail | numbers                                            | bytes
** -------------------+--------+----------------------------------------------------+------------------------------------------
** ACT_OPEN           | NEED_  | exchange, consumer; first, second: see NEED_HOLE   | the method, the target, and the fields;
**                    |        |                                                    | method_length and target_length of them
** ACT_ASK, ACT_CLOSE |        | exchange                                           |
** ACT_SHOWN          | WHY_   | consumer, representation, status, position, end;   | the fields
**                    |        | exchange, first, second: see WHY_                  |
** ACT_DATA           |        | consumer, exchange, position                       | the bytes given
** ACT_ENDED          |        | consumer                                           |
** ACT_FAILED         | CAUSE_ | consumer; exchange, representation, first, second: |
**                    |        | see CAUSE_                                         |
** ACT_PENDING        | WAIT_  | consumer; exchange or first: see WAIT_             |
** ACT_LOST           | LOST_  | representation                                     |
** ACT_EVICTED        |        | representation                                     |
** ACT_DENIED         | DENIED_| first: see DENIED_                                 |
*/
typedef struct vosdrieng_act {
    uint32_t kind;           /* VOSDRIENG_ACT_ and so on */
    uint32_t detail;         /* why, by the kind */
    uint64_t consumer;
    uint64_t exchange;
    uint64_t representation;
    uint64_t position;       /* of the first byte given, or of the first that is to be given, counted from 0 */
    uint64_t end;            /* of what is shown: behind its last byte, where that is known */
    uint64_t first;
    uint64_t second;
    uint64_t length;         /* how many bytes vosdrieng_act_bytes has */
    uint64_t method_length;
    uint64_t target_length;
    uint32_t status;
    uint32_t has_end;        /* 1 where `end` is known */
} vosdrieng_act;

#define VOSDRIENG_ACT_OPEN 1    /* open an exchange for the consumer: send this request to the origin */
#define VOSDRIENG_ACT_ASK 2     /* bring the next piece of the exchange, or its end or fault */
#define VOSDRIENG_ACT_CLOSE 3   /* drop the exchange: its events will be denied */
#define VOSDRIENG_ACT_SHOWN 4   /* the consumer is shown this head */
#define VOSDRIENG_ACT_DATA 5    /* the consumer is given bytes, which the exchange brought */
#define VOSDRIENG_ACT_ENDED 6   /* the consumer has all of its bytes */
#define VOSDRIENG_ACT_FAILED 7  /* the consumer fails */
#define VOSDRIENG_ACT_PENDING 8 /* the consumer is to poll again when what it waits for came */
#define VOSDRIENG_ACT_LOST 9    /* the representation is lost */
#define VOSDRIENG_ACT_EVICTED 10 /* the representation made room for another */
#define VOSDRIENG_ACT_DENIED 11 /* the event is denied */

/* why an exchange is opened */
#define VOSDRIENG_NEED_DISABLED 1    /* the request is none that the cache serves */
#define VOSDRIENG_NEED_TIMED_OUT 2   /* the consumer waited for 20 seconds */
#define VOSDRIENG_NEED_BYPASS 3      /* the request goes past what is stored */
#define VOSDRIENG_NEED_MISS 4        /* nothing is stored */
#define VOSDRIENG_NEED_VARY 5        /* what is stored answers other request fields */
#define VOSDRIENG_NEED_VALIDATE 6    /* what is stored is to be validated */
#define VOSDRIENG_NEED_HOLE 7        /* the bytes from `first` on, up to `second` and without it, are not stored */
#define VOSDRIENG_NEED_UNSATISFIED 8 /* the range asked for is past the end of what is stored */

/* why a head may be shown */
#define VOSDRIENG_WHY_FETCHED 1   /* `exchange` brought it for the consumer */
#define VOSDRIENG_WHY_FRESH 2     /* it is fresh: `first` is its age and `second` its lifetime, in seconds */
#define VOSDRIENG_WHY_STALE 3     /* it is stale, which the request accepts; `first` and `second` as above */
#define VOSDRIENG_WHY_VALIDATED 4 /* `exchange` validated or joined it */

/* why a consumer fails */
#define VOSDRIENG_CAUSE_NET 1         /* `exchange` broke */
#define VOSDRIENG_CAUSE_SHORT 2       /* `exchange` ended with `first` bytes of the `second` that it promised */
#define VOSDRIENG_CAUSE_CHANGED 3     /* `exchange` brought another representation */
#define VOSDRIENG_CAUSE_STORE_WRITE 4 /* a write of `representation` failed */
#define VOSDRIENG_CAUSE_STORE_READ 5  /* a read of `representation` failed */
#define VOSDRIENG_CAUSE_MISS 6        /* the request is for what is stored alone, and nothing is */
#define VOSDRIENG_CAUSE_BAD_HEAD 7    /* the head of `exchange` declares no usable length */

/* what a consumer waits for */
#define VOSDRIENG_WAIT_TURN 1 /* the turn of the consumer `first` */
#define VOSDRIENG_WAIT_BUSY 2 /* the consumer `first`, which uses what is stored */
#define VOSDRIENG_WAIT_HEAD 3 /* the head of `exchange` */
#define VOSDRIENG_WAIT_BODY 4 /* the next bytes of `exchange` */

/* why a representation is lost */
#define VOSDRIENG_LOST_FAULT 1     /* the store failed */
#define VOSDRIENG_LOST_TOO_LARGE 2 /* it has more bytes than `max_entry` */
#define VOSDRIENG_LOST_FULL 3      /* all together weigh more than `max_total` */

/* why an event is denied: the first that applies */
#define VOSDRIENG_DENIED_NOT_RISING 1 /* a start whose number isn't above `first`, that of the last accepted one */
#define VOSDRIENG_DENIED_TOO_MANY 2   /* a start while 1,024 consumers are live */
#define VOSDRIENG_DENIED_NO_CONSUMER 3
#define VOSDRIENG_DENIED_FINISHED 4 /* the consumer isn't live any more, or was passed over */
#define VOSDRIENG_DENIED_WANT_ZERO 5
#define VOSDRIENG_DENIED_NO_EXCHANGE 6
#define VOSDRIENG_DENIED_HEAD_TWICE 7
#define VOSDRIENG_DENIED_NO_HEAD_YET 8
#define VOSDRIENG_DENIED_NOT_ASKED 9
#define VOSDRIENG_DENIED_EMPTY_PIECE 10
#define VOSDRIENG_DENIED_OVERLONG 11 /* the piece would pass the `first` bytes that its exchange promised */

uint32_t vosdrieng_next_act(vosdrieng_cache *cache, vosdrieng_act *act);
size_t vosdrieng_act_bytes(vosdrieng_cache *cache, uint8_t *into, size_t room);

/*
** A SCHEDULE AS TEXT
**
** In place of the calls above, events may be handed in as the text of a schedule, which docs/FORMATS.md has. They are answered by the
** text of their report. A text begins before any other event of a cache.
**
** vosdrieng_schedule reads a further piece of the text, cut anywhere: a line, and an item, may go on in the next piece. The events whose
** items end in it are answered, up to a line that is refused. Lines and entries are numbered from 1 on over all pieces, and the
** text begins at the moment of the cache. However the text is cut, the reports of its pieces, one after another, are the report
** that a replay writes of it over this cache. With the limits 16,777,216 and 268,435,456 that is the report of `vosdrieng replay`;
** behind vosdrieng_open they go on with the image.
** At BAD_TEXT `line` is the number of the line that is refused, and `why` is VOSDRIENG_LINE_BAD and so on. At any other answer neither is
** written. The events before that line were answered, and their report is there. From then on each piece is answered BAD_TEXT, with that
** line, and nothing of it is answered: its report is empty. A call above ends the text where it is answered OK: a piece behind it is LATE.
** At NO_MEMORY, EXHAUSTED and LATE nothing of the piece was read or answered, but that NO_MEMORY may come within it: then there is no
** report, and nothing is answered any more.
** Answers: OK, NO_HANDLE, NO_MEMORY, EXHAUSTED (2^60 bytes of text), LATE, BAD_TEXT.
**
** vosdrieng_schedule_end tells that the text ends here. It is BAD_TEXT, with `line` and `why` as above, where the text was refused, or a
** line or field lines are missing. It takes no memory, and leaves the report as it is. Behind OK the text may go on.
** Answers: OK, NO_HANDLE, NO_MEMORY, LATE, BAD_TEXT.
**
** vosdrieng_report copies the first `room` bytes of the report of the last piece, or all where there are fewer, and returns how many the
** report has; nothing is written behind them. It may be copied again, until the next piece, or an event by a call above. Then the library
** lets it go. It needs no memory. Of a text no act is told.
*/
#define VOSDRIENG_LINE_BAD 1         /* the line is off the grammar */
#define VOSDRIENG_LINE_TOO_LONG 2    /* it has more than 140,000 bytes */
#define VOSDRIENG_LINE_BAD_TARGET 3  /* its target is none */
#define VOSDRIENG_LINE_MOMENT_BACK 4 /* its moment is below the one that was set before */
#define VOSDRIENG_LINE_CUT_SHORT 5   /* the text ends within it, or before it where it is a field line */

vosdrieng_answer vosdrieng_schedule(vosdrieng_cache *cache, const uint8_t *text, size_t len,
                                    uint64_t *line, uint32_t *why);
vosdrieng_answer vosdrieng_schedule_end(vosdrieng_cache *cache, uint64_t *line, uint32_t *why);
size_t vosdrieng_report(vosdrieng_cache *cache, uint8_t *into, size_t room);

/*
** WHAT THE STORE HAS
**
** vosdrieng_image copies the first `room` bytes of the image of what the store has, or all where there are fewer; `len` is how many
** the image has. Nobody may be live. vosdrieng_open makes a cache with it, with the same limits or larger ones, unless 2^60
** exchanges were opened. Where `room` was too small, call again with more: each call makes the image anew. At any answer but OK `len` is 0.
** Answers: OK, NO_HANDLE, NO_MEMORY, LIVE.
**
** vosdrieng_faults is how often the store failed. A store in memory never does: 0. So it is for a handle without a cache.
** vosdrieng_moment is the moment of the last event; before the first it is that of the image, or 0. vosdrieng_live is how many consumers
** are live. Both are 0 without a cache, and after an event was answered NO_MEMORY.
*/
vosdrieng_answer vosdrieng_image(vosdrieng_cache *cache, uint8_t *into, size_t room, size_t *len);
uint64_t vosdrieng_faults(vosdrieng_cache *cache);
uint64_t vosdrieng_moment(vosdrieng_cache *cache);
uint64_t vosdrieng_live(vosdrieng_cache *cache);

#ifdef __cplusplus
}
#endif

#endif
