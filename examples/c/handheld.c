/* A card operating system and a terminal in one, over the library: handheld RECORDS, keys on standard input. The card is made by a file of floor
   records; those of a session (P, S, O, N, W, R) are left out, since it is led here. */
#include <stdio.h>
#include <string.h>
#include <unistd.h>
#include "toolkit.h"

enum { RECORD = 24, ARGUMENTS = 20, EVENT_LIST = 0x19, TERMINAL_PROFILE = 0xFF };

static const char usage[] = "N chooses row N, ?N asks for help on it, lN and uN lock and unlock applet N, q ends\n";
static bool colours;

static void colour(const char *code)
{
    if (colours)
        printf("\033[%sm", code);
}

/* What is no plain character becomes a dot: texts and keys may hold any bytes. */
static void put_text(const void *text, size_t length)
{
    const uint8_t *bytes = text;
    for (size_t i = 0; i < length; i++)
        putchar(bytes[i] >= 0x20 && bytes[i] < 0x7F ? bytes[i] : '.');
}

static void put_padded(const void *text, size_t length, size_t width)
{
    put_text(text, length);
    for (size_t i = length; i < width; i++)
        putchar(' ');
}

/* ---- The card ---- */

static bool well_filled(const uint8_t *record)
{
    static const struct { char letter; uint8_t least, most; } counts[] = {
        {'I', 12, 12}, {'M', 1, ARGUMENTS}, {'E', 2, 2}, {'C', 2, 2}, {'T', 0, 0}, {'D', 0, 0}, {'L', 0, 0}, {'U', 0, 0}};
    const uint8_t count = record[2];
    for (size_t i = 0; i < sizeof counts / sizeof counts[0]; i++) {
        if (record[0] != counts[i].letter)
            continue;
        if (count < counts[i].least || count > counts[i].most || (record[0] == 'M' && record[3] > 1))
            return false;
        for (size_t unused = 3u + count; unused < RECORD; unused++)
            if (record[unused] != 0)
                return false;
        return true;
    }
    return false;
}

static struct toolkit_answer obey(struct toolkit_card *card, const uint8_t *record)
{
    const uint8_t applet = record[1], count = record[2], *given = record + 3;
    const int16_t event = (int16_t)(given[0] << 8 | given[1]);
    struct toolkit_request request;
    switch (record[0]) {
    case 'I':
        memcpy(&request, given, sizeof request);
        return toolkit_install(card, applet, request);
    case 'M': return toolkit_new_entry(card, applet, given[0] != 0, given + 1, count - 1u);
    case 'E': return toolkit_set_event(card, applet, event);
    case 'C': return toolkit_clear_event(card, applet, event);
    case 'T': return toolkit_allocate_timer(card, applet);
    case 'D': return toolkit_delete(card, applet);
    case 'L': return toolkit_lock(card, applet);
    default: return toolkit_unlock(card, applet);
    }
}

/* What could not be done is said. */
static void make(struct toolkit_card *card, FILE *records)
{
    uint8_t record[RECORD];
    size_t length;
    for (unsigned long number = 1; (length = fread(record, 1, RECORD, records)) != 0; number++) {
        if (memchr("PSONWR", record[0], 6) != NULL)
            continue;
        if (length < RECORD || !well_filled(record)) {
            printf("record %lu: no call\n", number);
            continue;
        }
        uint8_t refusal = obey(card, record).refusal;
        if (refusal != TOOLKIT_ACCEPTED)
            printf("record %lu: refused, %u\n", number, refusal);
    }
}

/* The round that an arrival has opened: a turn for each applet that next names, until it names nobody. */
static void run_round(struct toolkit_card *card, const char *before, const char *nobody)
{
    uint8_t applet = toolkit_next(card).called;
    if (applet == 0) {
        printf("%s", nobody);
        return;
    }
    printf("%sthe card calls applet %u", before, applet);
    while ((applet = toolkit_next(card).called) != 0)
        printf(", applet %u", applet);
    printf("\n");
}

/* Those whom an arrival calls have their turns; when they have returned, those that wait for the proactive handler have theirs. */
static void serve(struct toolkit_card *card)
{
    run_round(card, "", "the card calls nobody\n");
    toolkit_settled(card);
    run_round(card, "when they have returned ", "");
}

/* ---- The terminal ---- */

static void draw(const struct toolkit_menu *menu)
{
    static const char edge[] = "+------------------------+\n";
    printf("%s| ", edge);
    colour("1");
    put_padded(menu->title, menu->title_len, TOOLKIT_TITLE);
    colour("0");
    printf(" %c |\n%s", menu->help ? '?' : ' ', edge);
    for (uint8_t i = 0; i < menu->count; i++) {
        printf("| ");
        colour("33");
        printf("%2u", i + 1u);
        colour("0");
        printf(" ");
        put_padded(menu->at[i].text, menu->at[i].len, TOOLKIT_TITLE - 1);
        printf(" |\n");
    }
    printf("%s", edge);
}

static void show_events(const uint8_t *command, size_t length)
{
    const struct toolkit_spot content = toolkit_content(command, length);
    const struct toolkit_spot codes = toolkit_find(command + content.start, content.len, EVENT_LIST, 1);
    printf(codes.len == 0 ? "the card wants no events" : "the card wants the events");
    for (size_t i = 0; i < codes.len; i++)
        printf(" %02X", command[content.start + codes.start + i]);
    printf("\n");
}

/* Fetches whatever is due, shows it and responds. */
static void fetch(struct toolkit_card *card, struct toolkit_menu *menu)
{
    uint8_t command[TOOLKIT_BUFFER], length;
    while ((length = toolkit_system_command(card, command, sizeof command).number) != 0) {
        const struct toolkit_menu read = toolkit_read_menu(command, length);
        if (read.refusal == TOOLKIT_ACCEPTED) {
            *menu = read;
            draw(menu);
        } else {
            show_events(command, length);
        }
        toolkit_response(card);
    }
}

static void choose(struct toolkit_card *card, const struct toolkit_menu *menu, uint8_t row, bool help)
{
    if (row == 0 || row > menu->count) {
        printf("there is no row %u\n", row);
        return;
    }
    const struct toolkit_item *item = &menu->at[row - 1];
    const uint8_t length = help ? 9 : 7;
    const uint8_t selection[] = {0xD3, length, 0x82, 0x02, 0x01, 0x81, 0x90, 0x01, item->identifier, 0x95, 0x00};
    printf(help ? "help on " : "chosen: ");
    put_text(item->text, item->len);
    printf(", identifier %u: ", item->identifier);
    toolkit_envelope(card, selection, 2u + length);
    serve(card);
}

static void set_lock(struct toolkit_card *card, uint8_t applet, bool locked)
{
    const uint8_t refusal = (locked ? toolkit_lock(card, applet) : toolkit_unlock(card, applet)).refusal;
    if (refusal == TOOLKIT_ACCEPTED)
        printf("applet %u is %s\n", applet, locked ? "locked" : "unlocked");
    else
        printf("refused, %u\n", refusal);
}

/* ---- The keys ---- */

enum { CHOICE = '#', HELP = '?', LOCK = 'l', UNLOCK = 'u', QUIT = 'q', UNKNOWN = 0 };

struct line {
    uint8_t text[16];
    size_t length;      /* of the whole line, also where it is cut */
};

struct key {
    uint8_t what, number;
};

/* False at the end of input. */
static bool read_line(struct line *line)
{
    int c;
    line->length = 0;
    while ((c = getchar()) != EOF && c != '\n') {
        if (line->length < sizeof line->text)
            line->text[line->length] = (uint8_t)c;
        line->length++;
    }
    return c != EOF || line->length != 0;
}

static size_t skip_blanks(const struct line *line, size_t at)
{
    while (at < line->length && memchr(" \t\r", line->text[at], 3) != NULL)
        at++;
    return at;
}

/* A letter of the keys and a number behind it; a number alone is a choice. */
static struct key read_key(const struct line *line)
{
    const struct key unknown = {UNKNOWN, 0};
    struct key key = {CHOICE, 0};
    unsigned number = 0, digits = 0;
    if (line->length > sizeof line->text)
        return unknown;
    size_t at = skip_blanks(line, 0);
    if (at < line->length && memchr("?luq", line->text[at], 4) != NULL)
        key.what = line->text[at++];
    at = skip_blanks(line, at);
    for (; at < line->length && line->text[at] >= '0' && line->text[at] <= '9' && number <= 255; at++, digits++)
        number = number * 10 + (line->text[at] - '0');
    if (skip_blanks(line, at) < line->length || number > 255 || (digits == 0) != (key.what == QUIT))
        return unknown;
    key.number = (uint8_t)number;
    return key;
}

static void press(struct toolkit_card *card, struct toolkit_menu *menu, struct key key)
{
    if (key.what == CHOICE || key.what == HELP)
        choose(card, menu, key.number, key.what == HELP);
    else if (key.what == LOCK || key.what == UNLOCK)
        set_lock(card, key.number, key.what == LOCK);
    else
        printf("%s", usage);
    fetch(card, menu);
}

/* Whether the screen could be written. */
static bool prompt(void)
{
    printf("> ");
    return fflush(stdout) == 0;
}

int main(int count, char **words)
{
    static const uint8_t profile[] = {TERMINAL_PROFILE};
    struct toolkit_card card = toolkit_fresh("Packing", 7).card;
    struct toolkit_menu menu = {.count = 0};
    struct line line;
    FILE *records = count == 2 ? fopen(words[1], "rb") : NULL;
    if (records == NULL) {
        fprintf(stderr, "handheld RECORDS: a file of floor records is wanted\n");
        return 2;
    }
    colours = isatty(1);
    make(&card, records);
    fclose(records);
    printf("the handheld starts: ");
    toolkit_profile(&card, profile, sizeof profile);
    serve(&card);
    fetch(&card, &menu);
    printf("%s", usage);
    while (prompt() && read_line(&line)) {
        struct key key = read_key(&line);
        if (!isatty(0)) {
            put_text(line.text, line.length < sizeof line.text ? line.length : sizeof line.text);
            printf("\n");
        }
        if (key.what == QUIT)
            return 0;
        press(&card, &menu, key);
    }
    printf("\n");
    return fflush(stdout) != 0;
}
