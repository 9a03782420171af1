/*
 * Gemzuleg's calls for the course portal, in C. They answer who can get into an account: the papers' words are used as they
 * stand in document 01 (a sheet, an item, a starting item, a colour, a set, the opening list, score and risk).
 *
 *   sheets     portal_score, portal_risk     one item's score or risk, as one number
 *              portal_read                   the sheet's setup, which the calls on setups ask
 *              portal_name                   an item's name
 *              portal_pool                   two sheets, pooled into one
 *              portal_write_sheet            the sheet of a setup that was redrawn, to keep
 *   names      portal_read_set               the set that names joined by '+' name on a sheet
 *              portal_write_set              the names of a set
 *              portal_read_line              what a line says by which a student hands in sets by name
 *              portal_enter_line             such a line taken to the class register
 *   setups     portal_check                  is this a setup?
 *              portal_closure, portal_lost   what a set opens, what the loss of a set takes away
 *              portal_way_in                 how a set opens an item, step by step
 *              portal_opens                  does a set open an item? told as soon as it does
 *              portal_forecast               how many sets an opening list has at most, before it is listed
 *              portal_kinds                  which kinds of intruder are the lowest that get into an item
 *              portal_lists                  the smallest sets that open an item, and the smallest losses that shut it
 *              portal_cut_sets               the smallest sets of starting items to harden so that no way in is left
 *              portal_next_opening           the next of the smallest sets that open an item, while the setup may change
 *              portal_bag_score              an item's score as bags of start values, which keep their parts
 *              portal_take_in, portal_take_out, portal_add_edge, portal_remove_edge
 *                                            the setup redrawn in its buffer: what is held, and the edges
 *              portal_setup_score, portal_setup_risk
 *              portal_mark_openings, portal_mark_lockouts
 *              portal_hand_in                a student's attempt, marked and kept in the class register
 *              portal_backdoor, portal_idle, portal_out_of_rank
 *   records    portal_withdraw               a student's records taken out of the class register
 *   bags       portal_bag_at_most            is one bag of values at most another?
 *
 * Every call takes any input. It answers, or it refuses with exactly one number (enum portal_number), and its contract, which
 * is proved, says for every input what is returned and how every lent place ends (docs/INDEX.md leads from each call to it).
 *
 * Results. A result is a struct of plain numbers, called after its call: portal_closure hands back a struct portal_closure_result. (Both
 * calls that mark share portal_marks_result, the three findings portal_finding_result, and the three calls on the register
 * portal_register_result.) No function has a struct's name. Its first field is `number`: 0 for an answer, else that of the refusal. The
 * other fields have the answer's values; a field that the answer has no value for is 0, so all of them are after a refusal.
 * (The line that portal_read hands back, and that of portal_pool with its sheet, are the exceptions that the documents ask for: a refused
 * sheet has a line. So are the text and the place that portal_read_set and portal_read_line hand back. The count of a
 * portal_register_result is that of document 02: it comes back from a refusal as it was given.)
 * portal_bag_at_most alone hands back a bool: it refuses nothing, and true is yes.
 *
 * Lent places. A slice is a pointer and the count of its places. A pointer may be null where the count is 0, and nowhere else.
 * It is aligned as its type is. Memory that a call may write to overlaps nothing else that the same call is given. A refused
 * call changes no place that it was lent; an answered one leaves the places behind the written ones as they were.
 * (portal_read is the exception that document 01 asks for: a refused sheet gives a setup of 0 items.)
 * A yes or no that is handed in is a bool: true for yes. One that is handed back in a struct is a number: 1 for yes, 0 for no.
 * portal_read and the four calls that redraw a setup write to its buffer; all others leave it.
 *
 * Threads. No call keeps anything: there is no state, no heap and no lock, so threads may call at the same time, as long as
 * none writes to what another one uses. No call reads or changes errno, a signal or the floating point environment.
 *
 * Stack. A call needs PORTAL_STACK bytes of stack, one that marks PORTAL_STACK_MARKS; a thread with less ends in a crash. Each
 * call is tried in a thread of just that size before a change lands.
 *
 * Platform. The library is for x86-64 Linux (System V calling convention, any such processor) and needs memcpy and memset of the
 * C library. There, size_t and uint64_t have the same 64 bits.
 */
#ifndef GEMZULEG_PORTAL_H
#define GEMZULEG_PORTAL_H

#include <stdbool.h>
#include <stddef.h>
#include <stdint.h>

#ifdef __cplusplus
extern "C" {
#endif

/* ---- version ---- */

/* 4.1.0 is 40100: the last two parts have two digits each. The first part changes where a call or a struct does, the second
 * where one is new. */
#define PORTAL_VERSION 40100

/* The version of the library. A program that was compiled with another one's header sees PORTAL_VERSION differ from it. */
uint64_t portal_version(void);

/* ---- numbers ---- */

/* The score of an item that no set opens, and the risk of an item that no loss shuts: "never", above every number. */
#define PORTAL_NEVER (UINT64_C(1) << 62)

/* Bytes of stack: for a call that asks all subsets of the starting or losable items, which scores, lists, cut sets, the next
 * opening set and findings do, and portal_bag_score, which needs the most; for one that marks a handed-in list, which
 * portal_hand_in and portal_enter_line do; and for the others (portal_version, _read, _name, _check, _closure, _lost, _way_in, _opens, _forecast,
 * _kinds, _bag_at_most, _take_in, _take_out, _add_edge, _remove_edge, _pool, _write_sheet, _withdraw, _read_set,
 * _write_set, _read_line). */
#define PORTAL_STACK ((size_t)256 * 1024)
#define PORTAL_STACK_MARKS ((size_t)512 * 1024)
#define PORTAL_STACK_SMALL ((size_t)128 * 1024)

/* The numbers for no: the papers' questions. portal_refusal_text has a sentence for each. Later versions have more. */
enum portal_number {
    PORTAL_ANSWERED = 0,
    /* of a sheet; 2 and 4 to 8 also of names and hand-in lines */
    PORTAL_TOO_LONG = 1,
    PORTAL_NO_TEXT = 2,
    PORTAL_HEADER = 3,
    PORTAL_FIELDS = 4,
    PORTAL_FORM = 5,
    PORTAL_NAME_USED = 6,
    PORTAL_BOUND = 7,
    PORTAL_NAME_UNKNOWN = 8,
    PORTAL_EDGE_TWICE = 9,
    PORTAL_NO_ROWS = 10,
    PORTAL_NO_EDGE_PART = 11,
    /* of a call on a setup */
    PORTAL_NO_SETUP = 12,
    PORTAL_NO_ITEM = 13,
    PORTAL_OUTSIDE = 14,
    PORTAL_SHORT = 15,
    PORTAL_KINDS_LENGTH = 16,
    PORTAL_NO_KIND = 17,
    PORTAL_NO_COLOUR = 18,
    PORTAL_EDGE_THERE = 19,
    PORTAL_NO_EDGE = 20,
    PORTAL_STRANGER = 21,
    /* of two sheets that are pooled */
    PORTAL_DISAGREE = 22,
    PORTAL_POOL_BOUND = 23,
    PORTAL_POOL_SHORT = 24,
    /* of a call on the class register */
    PORTAL_OVERFULL = 25,
    PORTAL_ALL_USED = 26,
    PORTAL_NO_RECORD = 27
};

/* What a refusal says, in a sentence that lives as long as the program; "answered" for 0. */
static inline const char *portal_refusal_text(uint64_t number)
{
    switch (number) {
    case PORTAL_ANSWERED: return "answered";
    case PORTAL_TOO_LONG: return "the sheet is too long: at most 16384 bytes";
    case PORTAL_NO_TEXT: return "the text has something else than plain letters, digits and signs (a tab, an accent, a Windows line end), or its last line has no line end";
    case PORTAL_HEADER: return "a header is missing or misspelt: 'name kind start loss rank' at the top, 'from to colour rec' below the empty line";
    case PORTAL_FIELDS: return "a row has too many fields or too few: five for an item, four for an arrow; a hand-in is 'student account way set set ..'";
    case PORTAL_FORM: return "a field is not in its form, or out of its range";
    case PORTAL_NAME_USED: return "a name is used twice: by two items of a sheet, or in one set";
    case PORTAL_BOUND: return "too many: a sheet has at most 64 items, 14 with a start, 14 with a loss, and 256 arrows; a hand-in has at most 16384 sets";
    case PORTAL_NAME_UNKNOWN: return "no item has this name";
    case PORTAL_EDGE_TWICE: return "the arrow is there already: the same from, to and colour";
    case PORTAL_NO_ROWS: return "no item stands above the empty line";
    case PORTAL_NO_EDGE_PART: return "the sheet ends before 'from to colour rec'";
    case PORTAL_NO_SETUP: return "the numbers are no setup that a sheet can give";
    case PORTAL_NO_ITEM: return "there is no such item";
    case PORTAL_OUTSIDE: return "the set has an item that is not on the sheet";
    case PORTAL_SHORT: return "there is too little room for the answer";
    case PORTAL_KINDS_LENGTH: return "there must be one kind for each item";
    case PORTAL_NO_KIND: return "a starting item has no kind: a location (remote, local) and a skill (none, some, expert)";
    case PORTAL_NO_COLOUR: return "a colour is a number from 0 to 7";
    case PORTAL_EDGE_THERE: return "the arrow to add is there already";
    case PORTAL_NO_EDGE: return "the arrow to remove is not there";
    case PORTAL_STRANGER: return "the last set shown has an item that is no starting item";
    case PORTAL_DISAGREE: return "the two sheets do not say the same of an item that is in both";
    case PORTAL_POOL_BOUND: return "together the two sheets are too large: at most 64 items, 14 with a start, 14 with a loss, 256 arrows, and 8 colours into one item";
    case PORTAL_POOL_SHORT: return "there is too little room for the pooled sheet";
    case PORTAL_OVERFULL: return "the register says that it holds more records than it has";
    case PORTAL_ALL_USED: return "the register is full";
    case PORTAL_NO_RECORD: return "the student has handed nothing in";
    default: return "a number that this version does not have";
    }
}

/* ---- a setup ---- */

/*
 * A setup is a buffer of PORTAL_SETUP_WORDS numbers, which portal_read writes and which may be made by hand too. Items count
 * from 0. A set is a number: the sum of 2^i over its items. A buffer that is shorter, or in which the kind of any of the 64 places is
 * above 1, is no setup, and neither is one whose numbers no sheet and no call writes: every call on it answers 12, portal_hand_in after it
 * has asked 25. portal_check tells it by itself. Words behind the first PORTAL_SETUP_WORDS are not looked at, and stay as they are.
 */
#define PORTAL_SETUP_WORDS 1283
#define PORTAL_MAX_ITEMS 64
#define PORTAL_COLOURS 8
#define PORTAL_MAX_SHEET 16384
#define PORTAL_MAX_NAME 16
/* Bytes that are always enough for a pooled sheet. */
#define PORTAL_POOL_BYTES 11626
/* Bytes that are always enough for a saved sheet. */
#define PORTAL_SAVE_BYTES 11626
/* Bytes that are always enough for the names of a set: 64 names of 16 bytes, and 63 signs. */
#define PORTAL_SET_BYTES 1087
/* The most sets of one hand-in line: as many as 14 items have subsets. */
#define PORTAL_MAX_HANDED 16384
#define PORTAL_MAX_VALUE UINT64_C(4000000000)

/* Places that are always enough for one list of a target, and for both: of subsets of at most 14 items none of which lies within another
 * there are at most 3432. portal_forecast tells how many an opening list, or a list of cut sets, needs at most. */
#define PORTAL_MAX_LIST 3432
#define PORTAL_MAX_SETS (2 * PORTAL_MAX_LIST)

/* The places that a bag has: its most values. */
#define PORTAL_BAG_PLACES 14

/* The six kinds of intruder, 0 to 5: location 0 for remote and 1 for local, skill 0 for none, 1 for some and 2 for expert. */
#define PORTAL_KINDS 6
#define PORTAL_INTRUDER(location, skill) (3 * (location) + (skill))

/* Where the words stand. First, how many items there are: 1 to 64. */
#define PORTAL_COUNT 0
/* Of each place v from 0 to 63: 0 for a credential, and 1 for an account. */
#define PORTAL_KIND(v) (1 + 4 * (v))
/* How hard the item is to get, and to lose: 0 to PORTAL_MAX_VALUE, or PORTAL_BLANK where it is not a starting, or losable, item. */
#define PORTAL_START(v) (2 + 4 * (v))
#define PORTAL_LOSS(v) (3 + 4 * (v))
/* Its rank: 0 to 9. */
#define PORTAL_RANK(v) (4 + 4 * (v))
/* The set of items from which an edge of colour c, from 0 to 7, leads to it: they are needed together. 0: no such colour. */
#define PORTAL_ROW(v, c) (257 + 8 * (v) + (c))
/* Those of them whose edge is a recovery edge. Without recovery, a colour into an item is left out whole if any of its edges
 * is one; the item's other colours stay. */
#define PORTAL_RECOVERY(v, c) (769 + 8 * (v) + (c))
/* The items that are held, and those that they open. The calls that redraw a setup keep the two together, and portal_read writes 0 for
 * both; where the second is anything else than what the first opens, every call on the setup answers 12, portal_hand_in after it has
 * asked 25. No call but these four heeds what is held: the others ask the sets that they are given. */
#define PORTAL_HELD 1281
#define PORTAL_OPENED 1282
/* "-": no value. A place behind the last item has kind 0, PORTAL_BLANK twice, rank 0 and empty rows. */
#define PORTAL_BLANK UINT64_MAX

/* ---- results ---- */

/* A sheet's reading; line is that of the no, counted from 1, and 0 where the no is about the whole text or there is none. */
struct portal_read_result {
    uint64_t number;
    uint64_t line;
};

/* A part of a sheet's bytes: `length` of them, from the byte `start` on. */
struct portal_name_result {
    uint64_t number;
    uint64_t start;
    uint64_t length;
};

/* passes is how many passes lead from the given set to `set`; see portal_closure. */
struct portal_closure_result {
    uint64_t number;
    uint64_t set;
    uint64_t passes;
};

struct portal_lost_result {
    uint64_t number;
    uint64_t set;
};

/* opens is 1 where the set opens the target, and 0 for "shut"; steps is how many steps were written. */
struct portal_way_in_result {
    uint64_t number;
    uint64_t opens;
    uint64_t steps;
};

/* opens is 1 for yes and 0 for no; set is what is held at the stop. */
struct portal_opens_result {
    uint64_t number;
    uint64_t opens;
    uint64_t set;
};

/* How many sets the opening list has at most. */
struct portal_forecast_result {
    uint64_t number;
    uint64_t sets;
};

/* How many smallest cut sets there are. */
struct portal_cut_sets_result {
    uint64_t number;
    uint64_t count;
};

/* The lowest kinds of intruder that get in: the sum of 2^k over them. */
struct portal_kinds_result {
    uint64_t number;
    uint64_t kinds;
};

/* How many sets each list has. */
struct portal_lists_result {
    uint64_t number;
    uint64_t openings;
    uint64_t lockouts;
};

/* A pooled sheet's bytes are the first `length` of the buffer. A refusal has the sheet that was refused, 1 or 2, with its line;
 * where neither was, both are 0. */
struct portal_pool_result {
    uint64_t number;
    uint64_t sheet;
    uint64_t line;
    uint64_t length;
};

/* A saved sheet's bytes are the first `length` of the buffer. */
struct portal_write_sheet_result {
    uint64_t number;
    uint64_t length;
};

/*
 * A set by its names, and a hand-in line. A refusal says whose the number is, as the sheet's numbers and the other text's are the same: text
 * is 1 for the sheet, whose line is the place (0 where the no is about the whole sheet), and 2 for the names or the line. The place of a line
 * is its field, counted from 1, or 0 where the no is about the whole line; that of the names of a set is 0. For 15 both are 0.
 */
struct portal_read_set_result {
    uint64_t number;
    uint64_t text;
    uint64_t place;
    uint64_t set;
};

/* The names' bytes are the first `length` of the buffer. */
struct portal_write_set_result {
    uint64_t number;
    uint64_t length;
};

/* withdraws is 1 for a withdrawal, of the student alone; else lock is 1 for lockout sets and 0 for opening sets, and the first `count` places of
 * the list have the sets. */
struct portal_read_line_result {
    uint64_t number;
    uint64_t text;
    uint64_t place;
    uint64_t withdraws;
    uint64_t student;
    uint64_t target;
    uint64_t lock;
    uint64_t count;
};

/* more is 1 where a set is shown, and 0 for "no more"; then set is 0 too. */
struct portal_next_opening_result {
    uint64_t number;
    uint64_t more;
    uint64_t set;
};

/* How many bags the score has. */
struct portal_bag_score_result {
    uint64_t number;
    uint64_t bags;
};

/* Score and risk have a struct each: the papers never add or compare one with the other. PORTAL_NEVER is "never". */
struct portal_setup_score_result {
    uint64_t number;
    uint64_t score;
};

struct portal_setup_risk_result {
    uint64_t number;
    uint64_t risk;
};

/* How many handed-in sets are right, repeated, shut and loose, and how many sets of the list are missing. */
struct portal_marks_result {
    uint64_t number;
    uint64_t right;
    uint64_t repeated;
    uint64_t shut;
    uint64_t loose;
    uint64_t missing;
};

/* yes is 1 for yes, and 0 for no. */
struct portal_finding_result {
    uint64_t number;
    uint64_t yes;
};

/*
 * An attempt in the class register: whose it is, at which target, and by which way, 0 for its opening list and 1 for its lockout
 * list; then the marks. The caller lends a slice of them, the used ones first, and keeps their count. What stands behind the used
 * ones is the caller's. A record may have any numbers: one with another way is used as any other, and portal_hand_in never replaces it.
 */
struct portal_record {
    uint64_t student;
    uint64_t target;
    uint64_t way;
    uint64_t right;
    uint64_t repeated;
    uint64_t shut;
    uint64_t loose;
    uint64_t missing;
};

/* How many records are used now; after a refusal as many as before. */
struct portal_register_result {
    uint64_t number;
    size_t used;
};

/* Is this a full mark: no set is repeated, shut, loose or missing? */
static inline bool portal_is_full(struct portal_marks_result marks)
{
    return marks.number == 0 && marks.repeated == 0 && marks.shut == 0 && marks.loose == 0 && marks.missing == 0;
}

/* Is this a full mark, of a record? */
static inline bool portal_is_full_record(struct portal_record record)
{
    return record.repeated == 0 && record.shut == 0 && record.loose == 0 && record.missing == 0;
}

/* ---- calls on a sheet ---- */

/*
 * The score of an item of the sheet, as one number:
 *   below PORTAL_NEVER     the score: the least sum of start values over the sets of the opening list;
 *   PORTAL_NEVER           "never": no set of starting items opens the item;
 *   above PORTAL_NEVER     a refusal: PORTAL_NEVER plus its number, which is the sheet's own, 1 to 11, or 13.
 */
uint64_t portal_score(const uint8_t *sheet, size_t length, uint64_t item);

/* The risk likewise: the least sum of loss values over the sets of the lockout list. */
uint64_t portal_risk(const uint8_t *sheet, size_t length, uint64_t item);

/* Is what portal_score or portal_risk returned a score or a risk? */
static inline bool portal_is_value(uint64_t answer) { return answer < PORTAL_NEVER; }

/* Is it "never"? */
static inline bool portal_is_never(uint64_t answer) { return answer == PORTAL_NEVER; }

/* The number of a refusal, and 0 for any other answer. */
static inline unsigned portal_refusal(uint64_t answer)
{
    return answer > PORTAL_NEVER ? (unsigned)(answer - PORTAL_NEVER) : 0;
}

/*
 * Reads a sheet and writes its setup to the first PORTAL_SETUP_WORDS words of the buffer. A refused sheet has its number, 1 to
 * 11, and its line, and gives the setup of 0 items with no place in use. A shorter buffer is left as it was; then an accepted
 * sheet has number 15, and a refused one its own.
 */
struct portal_read_result portal_read(const uint8_t *sheet, size_t length, uint64_t *setup, size_t words);

/*
 * An item's name: the part of the sheet's own bytes that holds it, 1 to PORTAL_MAX_NAME bytes. Refused with the sheet's
 * number, 1 to 11, then 13; the part is then the empty one at the sheet's start.
 */
struct portal_name_result portal_name(const uint8_t *sheet, size_t length, uint64_t item);

/*
 * The pooled sheet of two labs' sheets, written to the start of the buffer. Items of one name are one item, and must agree in kind, start, loss
 * and rank ("-" and 0 disagree). The first sheet's items come first, then the other's remaining ones; all edges of the first, then all of the
 * other. For an item in both, each colour of the second sheet's edges into it, rising, becomes the lowest colour that neither the first sheet nor
 * an earlier renaming uses there. A set that opened an item in either sheet opens it in the pooled one; nothing is said of losses.
 * PORTAL_POOL_BYTES places are always enough. Refused with 1 to 11 and the sheet's line, the first sheet's refusal before the second's; then with
 * 22, 23, 24. A refusal leaves the buffer as it was, and the bytes behind the pooled sheet stay as they were.
 */
struct portal_pool_result portal_pool(const uint8_t *first, size_t first_length, const uint8_t *second, size_t second_length, uint8_t *out, size_t places);

/*
 * The sheet of a setup, under the names of a sheet, to the front of the buffer: to keep what was drawn. A setup has no names, so the sheet
 * that it was read from is handed over too; a setup of fewer items takes the first names. Item rows stand in item order, edge rows by the item
 * that they lead to, then colour, then source. What is held is no part of a sheet. Reading the sheet gives the same setup with nothing held.
 * PORTAL_SAVE_BYTES places are always enough: no sheet has more. Refused with the sheet's own number, 1 to 11; 12; 13, the setup has more
 * items than the sheet has names; 15. A refusal leaves the buffer as it was, and the bytes behind the saved sheet stay as they were.
 */
struct portal_write_sheet_result portal_write_sheet(const uint8_t *sheet, size_t length, const uint64_t *setup, size_t words, uint8_t *out, size_t places);

/*
 * The set that a text names on a sheet: names joined by '+', in any order, none twice, as mailpw+token; "-" is the empty set. Refused with the
 * sheet's number, 1 to 11, with text 1 and its line as place; then with 5 where the text is not names joined by '+', 8 where no item has a
 * name, 6 where an item is named twice, from the left, with text 2.
 */
struct portal_read_set_result portal_read_set(const uint8_t *sheet, size_t length, const uint8_t *text, size_t text_length);

/*
 * The names of a set, rising and joined by '+', or "-" for the empty one, written to the start of the buffer: portal_read_set reads them back.
 * PORTAL_SET_BYTES places are always enough. Refused with the sheet's number, 1 to 11; 14; 15. A refusal leaves the buffer as it was, and the
 * bytes behind the names stay as they were.
 */
struct portal_write_set_result portal_write_set(const uint8_t *sheet, size_t length, uint64_t set, uint8_t *out, size_t places);

/*
 * What a hand-in line says, which is handed over without its line end. There are two kinds:
 *
 *     student target way set set ..        way is open or lock; any number of sets, none too
 *     student withdraw
 *
 * One space stands between fields. student is 0 to 4000000000 without leading zeros, target the name of an item, a set as portal_read_set takes
 * it. Refused with the sheet's number, 1 to 11, with text 1 and its line as place; then with the line's first no, text 2 and the field as place:
 * 2 (a byte outside 32 to 126; place 0); 4 (the first empty field; else the first that is missing); then the fields from
 * the left, 5 for a student, 5 or 8 for a target, 5 for a way, 5, 8 or 6 for a set; 7 for more than PORTAL_MAX_HANDED sets (place 0). Last 15, where
 * the list has fewer places than the line has sets. A refusal leaves the list as it was.
 */
struct portal_read_line_result portal_read_line(const uint8_t *sheet, size_t length, const uint8_t *line, size_t line_length, uint64_t *sets, size_t places);

/* ---- calls on a setup ---- */

/* Question 12 by itself: 0 where the setup is one that an accepted sheet and a list of the four calls below reach, and 12 where it is
 * not. */
uint64_t portal_check(const uint64_t *setup, size_t words);

/*
 * The four calls that redraw a setup, in its buffer. After each the opened set is what the held set opens in the edges that are left.
 * They return 0, or the number of the refusal; a refused call leaves every word. An accepted one writes the setup to the first
 * PORTAL_SETUP_WORDS words; one that changes nothing leaves every word too.
 *
 * Takes an item into the held set; any item may be held. Refused with 12, 13. One that is held already stays so, and the answer is 0.
 */
uint64_t portal_take_in(uint64_t *setup, size_t words, uint64_t item);

/* Takes an item out of the held set. Refused with 12, 13. One that is not held is no fault: the answer is 0. The item stays open where
 * what else is held opens it. */
uint64_t portal_take_out(uint64_t *setup, size_t words, uint64_t item);

/*
 * Adds an edge, as a recovery edge where `recovery` is true. An edge more in a colour that has others makes that colour
 * harder, so that items can shut. Refused with 12, 13 (either end), 18, 19 (it is there, with one mark or the other), 7 (there are 256).
 */
uint64_t portal_add_edge(uint64_t *setup, size_t words, uint64_t from, uint64_t to, uint64_t colour, bool recovery);

/* Removes an edge, whether it is a recovery edge or not; items can shut by it, and open. Refused with 12, 13 (either end), 18, 20 (it is not
 * there). */
uint64_t portal_remove_edge(uint64_t *setup, size_t words, uint64_t from, uint64_t to, uint64_t colour);

/*
 * The closure: all items that the set opens, those in it too. A pass adds together all items that the set at its beginning
 * allows; `passes` is the number of passes, the one that adds nothing counted as well: 1 for a set that opens nothing new, and at
 * most the items outside the set, plus 1. Refused with 12, 14.
 */
struct portal_closure_result portal_closure(const uint64_t *setup, size_t words, uint64_t set);

/* The lost set: all items that the loss of the set takes away, those in it too. Refused with 12, 14. */
struct portal_lost_result portal_lost(const uint64_t *setup, size_t words, uint64_t set);

/*
 * The way in from the set to the target: at each step the lowest item that can be opened, by its lowest complete colour, until
 * the target is. The steps' items go to one list and their colours to the other; 0 steps where the set has the target. "Shut"
 * (opens is 0) where the set does not open it, whatever the lists' lengths. Refused with 12, 13, 14, 15. Lists of
 * PORTAL_MAX_ITEMS bytes are always long enough.
 */
struct portal_way_in_result portal_way_in(const uint64_t *setup, size_t words, uint64_t target, uint64_t set,
                                uint8_t *items, size_t item_places, uint8_t *colours, size_t colour_places);

/*
 * Does the set open the target? The call stops as soon as the target is held, and hands back the items that are held then: on a yes the
 * given set and the items of the way in (see portal_way_in), and no other, so the given set where it has the target; on a no the full
 * closure, as portal_closure has it. opens is 1 exactly where the target is in that closure. Refused with 12, 13, 14.
 */
struct portal_opens_result portal_opens(const uint64_t *setup, size_t words, uint64_t target, uint64_t set);

/*
 * The forecast for the target's opening list, told without listing anything: the number of ways to choose s / 2, rounded down, of s items,
 * where s counts the starting items that are the target or reach it along edges, whatever their colours, recovery edges too. It is 1 to
 * PORTAL_MAX_LIST. No opening list of the target is longer, and each item of each set in it is among those counted; no list of its
 * cut sets is longer either. It does not bound the lockout list: portal_lists, which writes both, has room enough with the forecast plus
 * PORTAL_MAX_LIST places.
 * Refused with 12, 13.
 */
struct portal_forecast_result portal_forecast(const uint64_t *setup, size_t words, uint64_t target);

/*
 * Who could get in. There are six kinds of intruder, PORTAL_INTRUDER(location, skill): one is at most another if both parts are. `kinds` has
 * one kind for each item, and those of starting items alone are read: who is of at least that kind can get the item. A set's kind is the
 * larger of each part over its items. The answer has the kinds over the target's opening list that have no other of them below, as the sum of
 * 2^k over them: bit k says that the kind k gets in, and none below it does; 0 says that nobody gets in. An intruder gets in exactly if some
 * kind of the answer is at most the intruder's. Refused with 12, 13, 16 where the list has not one entry for each item, 17 where a starting
 * item's entry is above 5; nothing that was lent is changed.
 */
struct portal_kinds_result portal_kinds(const uint64_t *setup, size_t words, uint64_t target, const uint8_t *kinds, size_t places);

/*
 * Both lists of the target: the opening list (sets of starting items that open it, no proper subset doing so), then from the
 * next place on the lockout list (sets of losable items whose loss takes it away, likewise). Each is ordered by fewer items,
 * then by the smaller number. Refused with 12, 13, and 15 exactly where both together have more sets than there are places.
 */
struct portal_lists_result portal_lists(const uint64_t *setup, size_t words, uint64_t target, uint64_t *sets, size_t places);

/*
 * The smallest cut sets of the target. A cut set is a set of starting items without which the other starting items do not open the
 * target: whoever begins with none of its items does not get in. Its items stay in the drawing, where the others may open them again; so they
 * are in general other sets than the lockout sets. Smallest: no proper subset is a cut set. They are exactly the smallest sets of starting
 * items that meet every set of the opening list. There is always one; where nothing opens the target, it is the empty set, and count is 1.
 * Ordered as the other lists are. Refused with 12, 13, and 15 exactly where there are more sets than places; portal_forecast tells of room
 * that is always enough.
 */
struct portal_cut_sets_result portal_cut_sets(const uint64_t *setup, size_t words, uint64_t target, uint64_t *sets, size_t places);

/*
 * The opening list shown one set at a time: the first set, in the list's order, after the set `last` that is in the target's opening list as
 * the setup now is; "no more" (more is 0) where there is none. At the beginning `last` is 0, the empty set, which opens nothing; then it is
 * the set that was shown. It need not be in the list, nor ever have been. Edges may be added to the setup and removed from it between two calls:
 * a set that has come into the list before `last` is not shown, and nothing is shown twice. With no change in between, the sets shown up to
 * "no more" are the whole list. Refused with 12, 13, and 21 where `last` has an item that is not a starting one.
 */
struct portal_next_opening_result portal_next_opening(const uint64_t *setup, size_t words, uint64_t target, uint64_t last);

/*
 * Is the first bag at most the other: can its values be paired, one to one, with values of the other that are at least as high? The other may
 * have more values. A list of 0 to PORTAL_BAG_PLACES values, in any order and of any size, is a bag; a longer list is none, and the answer is no
 * whatever stands against it. Both lists are only read, and may be the same memory. There is no refusal: true is yes, false is no.
 */
bool portal_bag_at_most(const uint64_t *bag, size_t values, const uint64_t *other, size_t other_values);

/*
 * The bag score of the target. Each set of its opening list gives the bag of its items' start values; the score has those bags to which no
 * different one of them is at most, each one time, in the order of the first set that has them. Bag k stands from values[k * PORTAL_BAG_PLACES]
 * on, highest value first, with 0 in the places that it does not use, and lengths[k] is the number of its values: 0 is a value too, so that a
 * bag is told by its places and its length. No bag of a score is at most another of it. To compare bags of different scores, give
 * portal_bag_at_most each bag's own length: its unused places would count as values of 0. Where nothing opens the target there is no bag, and
 * bags is 0. The two lent lists must not overlap. Refused with 12, 13, and 15 exactly where there are more than value_places / PORTAL_BAG_PLACES
 * bags or more than length_places: PORTAL_BAG_PLACES * PORTAL_MAX_LIST and PORTAL_MAX_LIST places are always enough, and so are as many bags'
 * places as portal_forecast tells.
 */
struct portal_bag_score_result portal_bag_score(const uint64_t *setup, size_t words, uint64_t target, uint64_t *values, size_t value_places,
                                         uint64_t *lengths, size_t length_places);

/* The score of the target. Refused with 12, 13. */
struct portal_setup_score_result portal_setup_score(const uint64_t *setup, size_t words, uint64_t target);

/* The risk of the target. Refused with 12, 13. */
struct portal_setup_risk_result portal_setup_risk(const uint64_t *setup, size_t words, uint64_t target);

/*
 * Marks for handed-in opening sets of the target. Each counts as the first that fits: repeated (equal to an earlier one), shut
 * (an item outside the starting items, or not opening), loose (a proper subset opens), right. Missing is the list's length
 * less right. Any number may be handed in as a set. Refused with 12, 13.
 */
struct portal_marks_result portal_mark_openings(const uint64_t *setup, size_t words, uint64_t target, const uint64_t *sets, size_t count);

/* Marks for handed-in lockout sets, likewise. Refused with 12, 13. */
struct portal_marks_result portal_mark_lockouts(const uint64_t *setup, size_t words, uint64_t target, const uint64_t *sets, size_t count);

/* Is recovery a backdoor to the item: is its score below that without recovery (PORTAL_RECOVERY)? Refused with 12, 13. */
struct portal_finding_result portal_backdoor(const uint64_t *setup, size_t words, uint64_t item);

/* Is the item's recovery idle: is its risk at most that without recovery, likewise? Refused with 12, 13. */
struct portal_finding_result portal_idle(const uint64_t *setup, size_t words, uint64_t item);

/* Out of rank: is `above` of higher rank than `below`, and its score at most that of `below`? Refused with 12, 13. */
struct portal_finding_result portal_out_of_rank(const uint64_t *setup, size_t words, uint64_t above, uint64_t below);

/* ---- calls on the class register ---- */

/*
 * These calls write to used records that they do not change the values that stand there, a hand-in also to the place behind them, and so they do where
 * they refuse with 26 or 27: no other thread may use these records meanwhile.
 */

/*
 * Hands in sets as a student's attempt at the target's opening list, or with `lock` at its lockout list. They are marked, and the
 * attempt's record takes the place of the first used one with the same student, target and way; where there is none, it goes behind the
 * used ones. No other record changes. Refused with 25, 12, 13, and 26 where a new record is needed and all are used.
 */
struct portal_register_result portal_hand_in(const uint64_t *setup, size_t words, struct portal_record *records, size_t places,
                                        size_t used, uint64_t student, uint64_t target, bool lock,
                                        const uint64_t *sets, size_t count);

/*
 * Withdraws a student: all of the student's used records are removed and the gaps closed, the order kept. Places that this frees at
 * the end keep what stood in them before the call. Refused with 25, 27.
 */
struct portal_register_result portal_withdraw(struct portal_record *records, size_t places, size_t used, uint64_t student);

/*
 * Takes a hand-in line (see portal_read_line) to the register: a hand-in as portal_hand_in does on the sheet's setup, a withdrawal as
 * portal_withdraw. Refused with 25; the sheet's number, 1 to 11; the line's, 2, 4, 5, 6, 7 or 8; then 26 or 27. portal_read_line tells whose a
 * number is, and where. A line that is refused changes no record and no count.
 */
struct portal_register_result portal_enter_line(const uint8_t *sheet, size_t length, const uint8_t *line, size_t line_length,
                                                struct portal_record *records, size_t places, size_t used);

#ifdef __cplusplus
}
#endif

#endif
