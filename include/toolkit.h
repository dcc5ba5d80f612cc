/* The toolkit runtime of a SIM, for C11 and C++17; link libtoolkit.a (`scripts/library`), which needs memcpy, memmove and memset alone.

   A card is 472 bytes of the caller's memory, at an even address, with no pointer in it. Make it by toolkit_fresh, change it by the calls
   below only: they take for granted that a fresh card and calls have left it so. It may be read, copied and moved at will. The library
   keeps nothing between calls, allocates nothing and has no variables, so cards are independent of each other, on whatever threads.

   Every call takes every input. What it cannot do it refuses with a number, and then changes nothing: not the card, not a byte of a
   lent buffer. All that is lent stays the caller's and is used during the call only; a card or a bank lent to a call may overlap no
   other argument, and neither may a buffer. */
#ifndef VOINTESKA_TOOLKIT_H
#define VOINTESKA_TOOLKIT_H

#include <stdbool.h>
#include <stddef.h>
#include <stdint.h>

#ifdef __cplusplus
extern "C" {
#define TOOLKIT_FACT(fact) static_assert(fact, #fact)
#define TOOLKIT_LAYOUT(type, size, align) static_assert(sizeof(type) == size && alignof(type) == align, #type)
#else
#define TOOLKIT_FACT(fact) _Static_assert(fact, #fact)
#define TOOLKIT_LAYOUT(type, size, align) _Static_assert(sizeof(type) == size && _Alignof(type) == align, #type)
#endif

/* ---- Numbers ---- */

enum toolkit_bound {
    TOOLKIT_APPLETS = 8,    /* applets are numbered 1 to 8 */
    TOOLKIT_TIMERS = 8,     /* timers too */
    TOOLKIT_ROWS = 12,
    TOOLKIT_ENTRIES = 4,    /* of one applet */
    TOOLKIT_TEXT = 15,
    TOOLKIT_TITLE = 20,
    TOOLKIT_PROFILE = 32,   /* bytes of a terminal profile that are kept */
    TOOLKIT_EVENTS = 20,
    TOOLKIT_BUFFER = 256    /* the least buffer that toolkit_system_command takes */
};

/* Where several apply, the lowest is given. */
enum toolkit_refusal {
    TOOLKIT_ACCEPTED = 0,
    TOOLKIT_MALFORMED = 1,              /* bytes malformed; profile empty */
    TOOLKIT_NO_APPLET = 2,              /* number outside 1..8, or no such applet (install: only outside 1..8) */
    TOOLKIT_NUMBER_IN_USE = 3,          /* number in use */
    TOOLKIT_OUT_OF_RANGE = 4,           /* priority 0, limit too large, identifier over 127 */
    TOOLKIT_TOO_MANY_ENTRIES = 5,       /* entry limits of all applets, this one included, exceed 12 */
    TOOLKIT_IDENTIFIER_TWICE = 6,       /* non-zero identifier requested twice, here or by an applet present */
    TOOLKIT_NOT_SUPPORTED = 7,          /* event value not supported */
    TOOLKIT_NOT_TO_SET = 8,             /* menu selection, help request or timer expiration */
    TOOLKIT_CONTROL_OWNED = 9,          /* call control owned by another applet */
    TOOLKIT_ALL_MADE = 10,              /* all the applet's entries already made */
    TOOLKIT_NOT_ITS_ROW = 11,           /* identifier is not a row of this applet */
    TOOLKIT_BAD_TEXT = 12,              /* text empty or over the applet's limit; title over 20 */
    TOOLKIT_TIMER_LIMIT = 13,           /* applet holds its timer limit or more */
    TOOLKIT_NO_TIMER_FREE = 14,         /* no timer free */
    TOOLKIT_NOT_ITS_TIMER = 15,         /* timer not owned by this applet */
    TOOLKIT_OUTSTANDING = 16,           /* a proactive command is outstanding */
    TOOLKIT_SYSTEM_TYPE = 17,           /* SET UP MENU 25, SET UP EVENT LIST 05, POLL INTERVAL 03, POLLING OFF 04 (hex) */
    TOOLKIT_SHORT_BUFFER = 18,          /* lent buffer under 256 bytes */
    TOOLKIT_NONE_OUTSTANDING = 19,      /* no command outstanding */
    TOOLKIT_BAD_DURATION = 20,          /* poll request of any other duration than -1, 0 and 1 to 15300 seconds */
    TOOLKIT_NO_ROUND = 21,              /* no round is open */
    TOOLKIT_ROUND_OPEN = 22             /* a round is open */
};

/* TS 102 241, clause 6.2. Menu selection, its help request and timer expiration come with rows and timers, and cannot be set. */
enum toolkit_event {
    TOOLKIT_EVENT_UNRECOGNIZED_ENVELOPE = -1,
    TOOLKIT_EVENT_PROFILE_DOWNLOAD = 1,
    TOOLKIT_EVENT_MENU_SELECTION = 7,
    TOOLKIT_EVENT_HELP_REQUEST = 8,
    TOOLKIT_EVENT_CALL_CONTROL = 9,     /* one owner at a time */
    TOOLKIT_EVENT_TIMER_EXPIRATION = 11,
    TOOLKIT_EVENT_MT_CALL = 12,
    TOOLKIT_EVENT_CALL_CONNECTED = 13,
    TOOLKIT_EVENT_CALL_DISCONNECTED = 14,
    TOOLKIT_EVENT_LOCATION_STATUS = 15,
    TOOLKIT_EVENT_USER_ACTIVITY = 16,
    TOOLKIT_EVENT_IDLE_SCREEN = 17,
    TOOLKIT_EVENT_CARD_READER_STATUS = 18,
    TOOLKIT_EVENT_LANGUAGE_SELECTION = 20,
    TOOLKIT_EVENT_BROWSER_TERMINATION = 21,
    TOOLKIT_EVENT_ACCESS_TECHNOLOGY = 25,
    TOOLKIT_EVENT_DISPLAY_PARAMETERS = 26,
    TOOLKIT_EVENT_NETWORK_SEARCH_MODE = 28,
    TOOLKIT_EVENT_BROWSING_STATUS = 29,
    TOOLKIT_EVENT_HANDLER_AVAILABLE = 123   /* used up at the applet's turn in a round that settled opened */
};

/* What a round was opened by, and what number goes with it. */
enum toolkit_arrival {
    TOOLKIT_ARRIVED_NOTHING = 0,        /* a download of a code that is not supported: it calls nobody */
    TOOLKIT_ARRIVED_EVENT = 1,          /* the event's place in toolkit_card.registered; settled has that of handler available */
    TOOLKIT_ARRIVED_CHOICE = 2,         /* the row's identifier */
    TOOLKIT_ARRIVED_HELP = 3,           /* the row's identifier */
    TOOLKIT_ARRIVED_EXPIRY = 4,         /* the timer */
    TOOLKIT_ARRIVED_STATUS = 5
};

/* ---- What an install asks for ---- */

struct toolkit_pair {
    uint8_t position;       /* 1 to the row count shifts rows down; 0, or more: last */
    uint8_t identifier;     /* 1 to 127; 0: the smallest of 128..255 not in use */
};
TOOLKIT_LAYOUT(struct toolkit_pair, 2, 1);

struct toolkit_request {
    uint8_t priority;       /* 1 to 255; the smaller is called first */
    uint8_t timers;         /* limits: 0 to 8 timers, 0 to 4 entries, texts of 0 to 15 bytes */
    uint8_t entries;
    uint8_t text;
    struct toolkit_pair pairs[TOOLKIT_ENTRIES];     /* as many as the entry limit are looked at */
};
TOOLKIT_LAYOUT(struct toolkit_request, 12, 1);

/* ---- The card: to be read at will, to be changed by the calls only. Behind a count or a length stand zeros.
   A set of applets is a byte: bit n - 1 is applet n's. What is kept by number stands for applet n in place n - 1. ---- */

struct toolkit_grant {      /* what an applet was installed with; zeros where there is none */
    uint8_t priority;
    uint8_t timers;
    uint8_t text;
    uint8_t entries;
    struct toolkit_pair pairs[TOOLKIT_ENTRIES];
};
TOOLKIT_LAYOUT(struct toolkit_grant, 12, 1);

struct toolkit_roll {
    uint8_t count;                                  /* how many applets are there */
    uint8_t age[TOOLKIT_APPLETS];                   /* their numbers in order of installation */
    uint8_t order[TOOLKIT_APPLETS];                 /* and in order of call */
    struct toolkit_grant grants[TOOLKIT_APPLETS];   /* by number */
    uint8_t present;                                /* set of the applets that are there */
};
TOOLKIT_LAYOUT(struct toolkit_roll, 114, 1);

struct toolkit_row {
    uint8_t identifier;
    uint8_t owner;
    bool help;
    bool enabled;
    uint8_t text[TOOLKIT_TEXT];
    uint8_t len;
};
TOOLKIT_LAYOUT(struct toolkit_row, 20, 1);

struct toolkit_rows {
    struct toolkit_row at[TOOLKIT_ROWS];            /* in menu order */
    uint8_t count;
};
TOOLKIT_LAYOUT(struct toolkit_rows, 241, 1);

struct toolkit_bank {
    uint8_t owner[TOOLKIT_TIMERS];                  /* of timers 1 to 8; 0: free */
};
TOOLKIT_LAYOUT(struct toolkit_bank, 8, 1);

struct toolkit_due {        /* what is due, in the order of handing out */
    bool menu;
    bool events;
    bool interval;          /* POLL INTERVAL */
    bool off;               /* POLLING OFF; never both of these */
};
TOOLKIT_LAYOUT(struct toolkit_due, 4, 1);

struct toolkit_desk {
    struct toolkit_due due;
    bool session;
    bool outstanding;
    uint8_t title_len;
    uint8_t title[TOOLKIT_TITLE];
    uint8_t profile[TOOLKIT_PROFILE];
};
TOOLKIT_LAYOUT(struct toolkit_desk, 59, 1);

struct toolkit_arrived {
    uint8_t kind;           /* enum toolkit_arrival */
    uint8_t number;         /* 0 where the kind has none */
};
TOOLKIT_LAYOUT(struct toolkit_arrived, 2, 1);

struct toolkit_round {      /* zeros where none is open */
    bool open;
    struct toolkit_arrived arrived;
    uint8_t waiting;        /* set of those registered on arrival, locked or not, less those named or deleted since */
};
TOOLKIT_LAYOUT(struct toolkit_round, 4, 1);

struct toolkit_card {
    uint16_t polls[TOOLKIT_APPLETS];        /* by number, the poll interval that it requests, in seconds; 0: none */
    uint8_t selectable;                     /* set of those that are not locked */
    uint8_t registered[TOOLKIT_EVENTS];     /* for each event, in the order of document 01, the set of those registered; none for call control */
    uint8_t control;                        /* who owns call control; 0: nobody */
    uint8_t made[TOOLKIT_APPLETS];          /* by number, how many of its entries are rows */
    struct toolkit_bank bank;
    struct toolkit_roll roll;
    struct toolkit_rows rows;
    struct toolkit_desk desk;
    struct toolkit_round round;
};
TOOLKIT_LAYOUT(struct toolkit_card, 472, 2);
TOOLKIT_FACT(offsetof(struct toolkit_card, polls) == 0);
TOOLKIT_FACT(offsetof(struct toolkit_card, selectable) == 16);
TOOLKIT_FACT(offsetof(struct toolkit_card, registered) == 17);
TOOLKIT_FACT(offsetof(struct toolkit_card, control) == 37);
TOOLKIT_FACT(offsetof(struct toolkit_card, made) == 38);
TOOLKIT_FACT(offsetof(struct toolkit_card, bank) == 46);
TOOLKIT_FACT(offsetof(struct toolkit_card, roll) == 54);
TOOLKIT_FACT(offsetof(struct toolkit_card, rows) == 168);
TOOLKIT_FACT(offsetof(struct toolkit_card, desk) == 409);
TOOLKIT_FACT(offsetof(struct toolkit_card, round) == 468);

/* ---- Answers: with a refusal, all else is 0 or false ---- */

struct toolkit_marks {      /* the handlers available to those called */
    bool proactive;
    bool envelope;
    bool response;
};
TOOLKIT_LAYOUT(struct toolkit_marks, 3, 1);

struct toolkit_answer {
    uint8_t refusal;        /* enum toolkit_refusal */
    uint8_t number;         /* new entry: its identifier; allocate timer: the timer; system command: the length written */
    bool says;              /* ask event: yes or no */
    uint8_t called;         /* next: the applet to call; 0: nobody */
    struct toolkit_marks marks;     /* profile, envelope, status, settled */
};
TOOLKIT_LAYOUT(struct toolkit_answer, 7, 1);

struct toolkit_made {
    struct toolkit_card card;
    uint8_t refusal;
};
TOOLKIT_LAYOUT(struct toolkit_made, 474, 2);

struct toolkit_spot {       /* a part of the caller's bytes */
    size_t start;
    size_t len;
    bool there;             /* an element of length 0 is there; one that is not found is not */
};
TOOLKIT_LAYOUT(struct toolkit_spot, 24, 8);

struct toolkit_item {
    uint8_t identifier;
    uint8_t text[TOOLKIT_TEXT];
    uint8_t len;
};
TOOLKIT_LAYOUT(struct toolkit_item, 17, 1);

struct toolkit_menu {
    uint8_t refusal;        /* 0, or TOOLKIT_MALFORMED: no menu that some card can write */
    uint8_t title[TOOLKIT_TITLE];
    uint8_t title_len;
    bool help;              /* some row has help */
    struct toolkit_item at[TOOLKIT_ROWS];
    uint8_t count;
};
TOOLKIT_LAYOUT(struct toolkit_menu, 228, 1);

/* ---- The calls. Each answer has the refusal's number, or 0 and what the call gives; the numbers that a call may give stand with it. A pointer
   to bytes may be null where their length is 0; no other may. ---- */

/* Makes a card; its title heads the menu. Refusal 12 makes one with an empty title. */
struct toolkit_made toolkit_fresh(const void *title, size_t title_len);

/* A new applet, selectable. Refusals 2, 3, 4, 5, 6. */
struct toolkit_answer toolkit_install(struct toolkit_card *card, uint8_t applet, struct toolkit_request request);

/* Removes an applet with its rows, timers, registrations and poll request; its number leaves the round. Refusal 2. */
struct toolkit_answer toolkit_delete(struct toolkit_card *card, uint8_t applet);

/* A locked applet is not called, its rows are not shown and its poll request does not count. Refusal 2. */
struct toolkit_answer toolkit_lock(struct toolkit_card *card, uint8_t applet);
struct toolkit_answer toolkit_unlock(struct toolkit_card *card, uint8_t applet);

/* Registers an applet for an event (enum toolkit_event). Refusals 2, 7, 8, 9. */
struct toolkit_answer toolkit_set_event(struct toolkit_card *card, uint8_t applet, int16_t value);

/* Ends a registration. Refusals 2, 7, 8. */
struct toolkit_answer toolkit_clear_event(struct toolkit_card *card, uint8_t applet, int16_t value);

/* answer.says: the applet is registered for the event. Refusals 2, 7, 8. */
struct toolkit_answer toolkit_ask_event(struct toolkit_card *card, uint8_t applet, int16_t value);

/* The poll interval that the applet requests: 1 to 15300 seconds; 0: none, as at first; -1: the card's choice, which is none. The terminal
   is told the smallest of the applets that are not locked, in whole minutes if it is over 255 seconds. Refusals 2, 20. */
struct toolkit_answer toolkit_request_poll(struct toolkit_card *card, uint8_t applet, int16_t duration);

/* Makes the applet's next entry a row; answer.number is its identifier. Equal texts are rows of their own. Refusals 2, 10, 12. */
struct toolkit_answer toolkit_new_entry(struct toolkit_card *card, uint8_t applet, bool help, const void *text, size_t text_len);

/* Gives a row a new text and help mark. Refusals 2, 11, 12. */
struct toolkit_answer toolkit_change_entry(struct toolkit_card *card, uint8_t applet, uint8_t identifier, bool help,
                                           const void *text, size_t text_len);

/* A disabled row keeps its place and is not shown. Refusals 2, 11. */
struct toolkit_answer toolkit_enable_entry(struct toolkit_card *card, uint8_t applet, uint8_t identifier);
struct toolkit_answer toolkit_disable_entry(struct toolkit_card *card, uint8_t applet, uint8_t identifier);

/* Gives the applet the lowest free timer, answer.number. Refusals 2, 13, 14. */
struct toolkit_answer toolkit_allocate_timer(struct toolkit_card *card, uint8_t applet);

/* Refusals 2, 15. */
struct toolkit_answer toolkit_release_timer(struct toolkit_card *card, uint8_t applet, uint8_t timer);

/* What arrives: a profile, an envelope, a STATUS, and the moment when everyone called has returned. Each answers its marks only and opens a
   round, in which those registered for it have their turns; it takes the place of a round that is open, where settled is refused instead. An
   operating system runs it so: the arrival; toolkit_next and a call of the applet that it names, until it names nobody; then toolkit_settled;
   and again toolkit_next, until it names nobody. */

/* The terminal's profile begins a session and ends an outstanding command. It calls those registered for it. Refusal 1. */
struct toolkit_answer toolkit_profile(struct toolkit_card *card, const void *bytes, size_t bytes_len);

/* An envelope of the terminal; answer.marks tells the handlers that those called have. Refusal 1. */
struct toolkit_answer toolkit_envelope(struct toolkit_card *card, const void *bytes, size_t bytes_len);

/* A STATUS of the terminal. It calls those who request a poll interval. No refusal. */
struct toolkit_answer toolkit_status(struct toolkit_card *card);

/* Everyone called has returned. It calls those who wait for the proactive handler. Refusals 16, 22. */
struct toolkit_answer toolkit_settled(struct toolkit_card *card);

/* The round's next turn: answer.called is the first, in order of call, of those who were registered on arrival and still are, are not locked,
   and have not been named in the round. Where that is nobody the round ends. Refusal 21. */
struct toolkit_answer toolkit_next(struct toolkit_card *card);

/* An applet's own proactive command, which is outstanding from then on. Refusals 1, 2, 15, 16, 17. */
struct toolkit_answer toolkit_send(struct toolkit_card *card, uint8_t applet, const void *bytes, size_t bytes_len);

/* Writes the menu, the event list, POLL INTERVAL or POLLING OFF, the first that is due, at the front of the buffer and makes it
   outstanding; answer.number is its length, at most 250, or 0 where nothing is due. The rest of the buffer stays. Refusals 16, 18. */
struct toolkit_answer toolkit_system_command(struct toolkit_card *card, uint8_t *buf, size_t buf_len);

/* The terminal's response ends the outstanding command. Refusal 19. */
struct toolkit_answer toolkit_response(struct toolkit_card *card);

/* Where the value of an element stands in a run of elements: by its tag number (1 to 7FFF hex: the bits of a tag of one byte, or of the two
   behind 7F, without the comprehension flag) and its occurrence, counted from 1 over both forms of tag. */
struct toolkit_spot toolkit_find(const void *run, size_t run_len, uint16_t tag, size_t occurrence);

/* Where the handler's content stands in an envelope: what follows its length. One that is malformed has none. */
struct toolkit_spot toolkit_content(const void *envelope, size_t envelope_len);

/* Reads back a menu that a card has written. Refusal 1. */
struct toolkit_menu toolkit_read_menu(const void *bytes, size_t bytes_len);

/* A timer bank standing alone, of eight owners that may be any bytes: one outside 1..8 counts as free. Gives the lowest free timer
   (answer.number) to an applet that holds fewer than `limit`, or takes a timer back. Refusals 2, 13, 14; and 2, 15. */
struct toolkit_answer toolkit_bank_allocate(struct toolkit_bank *bank, uint8_t applet, uint8_t limit);
struct toolkit_answer toolkit_bank_release(struct toolkit_bank *bank, uint8_t applet, uint8_t timer);

#undef TOOLKIT_FACT
#undef TOOLKIT_LAYOUT

#ifdef __cplusplus
}
#endif

#endif
