/* A client of the portal's calls, each on document 01's sheet and on refused input, in a thread with just the stack that the
 * header names for it; then all of them in several threads at once. Prints what is wrong and ends with status 1, or says that
 * all is well. `client stack` prints instead how small a stack each call ran with. */
#include <pthread.h>
#include <stdio.h>
#include <stdlib.h>
#include <string.h>
#include <sys/wait.h>
#include <unistd.h>

#include "../../include/portal.h"

#define WORDS PORTAL_SETUP_WORDS
#define LENT UINT64_C(0x1234567890abcdef)

static const char SHEET[] =
    "name kind start loss rank\n"
    "ordpw c 1 2 0\n"
    "mailpw c 1 1 0\n"
    "token c 3 2 0\n"
    "mail a - - 1\n"
    "order a - - 3\n"
    "\n"
    "from to colour rec\n"
    "mailpw mail 0 0\n"
    "ordpw order 0 0\n"
    "token order 0 0\n"
    "mail order 1 1\n";

static const char ALONE[] = "name kind start loss rank\nalone a - - 0\n\nfrom to colour rec\n";

static const char RING[] = "name kind start loss rank\np a 1 1 0\nq a 1 1 0\n\nfrom to colour rec\np q 0 0\nq p 0 0\n";

/* Fourteen items of the largest value. All of them together open item 14; any of them opens item 16, so that it is lost with all 14
 * alone: seven are its own, and seven those of item 15. */
static const char LARGEST[] =
    "name kind start loss rank\n"
    "a c 4000000000 4000000000 0\nb c 4000000000 4000000000 0\nc c 4000000000 4000000000 0\nd c 4000000000 4000000000 0\n"
    "e c 4000000000 4000000000 0\nf c 4000000000 4000000000 0\ng c 4000000000 4000000000 0\nh c 4000000000 4000000000 0\n"
    "i c 4000000000 4000000000 0\nj c 4000000000 4000000000 0\nk c 4000000000 4000000000 0\nl c 4000000000 4000000000 0\n"
    "m c 4000000000 4000000000 0\nn c 4000000000 4000000000 0\nall a - - 1\nrest a - - 1\nany a - - 1\n"
    "\n"
    "from to colour rec\n"
    "a all 0 0\nb all 0 0\nc all 0 0\nd all 0 0\ne all 0 0\nf all 0 0\ng all 0 0\n"
    "h all 0 0\ni all 0 0\nj all 0 0\nk all 0 0\nl all 0 0\nm all 0 0\nn all 0 0\n"
    "h rest 0 0\ni rest 1 0\nj rest 2 0\nk rest 3 0\nl rest 4 0\nm rest 5 0\nn rest 6 0\n"
    "a any 0 0\nb any 1 0\nc any 2 0\nd any 3 0\ne any 4 0\nf any 5 0\ng any 6 0\nrest any 7 0\n";

static const char BEYOND[] = "name kind start loss rank\na c 4000000001 - 0\n\nfrom to colour rec\n";
static const char LOSS_BEYOND[] = "name kind start loss rank\na c - 4000000001 0\n\nfrom to colour rec\n";

enum { ORDPW = 1, MAILPW = 2, TOKEN = 4, MAIL = 8, ORDER = 16, ORDER_ITEM = 4, MAIL_ITEM = 3 };

/* The setups of SHEET, ALONE, RING and LARGEST; the first with the largest value; and three that no sheet yields: one by its rank, the others by a start and a loss above the largest value. */
static uint64_t setup[WORDS], alone[WORDS], ring[WORDS], fourteen[WORDS], highest[WORDS], malformed[WORDS], beyond[WORDS], loss_beyond[WORDS];

static int faults;

static void expect(const char *what, uint64_t got, uint64_t wanted)
{
    if (got != wanted) {
        printf("%s: got %llu, wanted %llu\n", what, (unsigned long long)got, (unsigned long long)wanted);
        __atomic_store_n(&faults, 1, __ATOMIC_RELAXED);
    }
}

static const uint8_t *bytes(const char *text) { return (const uint8_t *)text; }

static uint64_t score(const char *text, uint64_t item) { return portal_score(bytes(text), strlen(text), item); }

static uint64_t risk(const char *text, uint64_t item) { return portal_risk(bytes(text), strlen(text), item); }

/* ---- one function for each call: an answer, and refusals */

static void try_version(void) { expect("version", portal_version(), PORTAL_VERSION); }

static void try_score(void)
{
    expect("score of order", score(SHEET, 4), 1);
    expect("score of mail", score(SHEET, 3), 1);
    expect("score of token", score(SHEET, 2), 3);
    expect("no such item", score(SHEET, 5), PORTAL_NEVER + PORTAL_NO_ITEM);
    expect("never", score(ALONE, 0), PORTAL_NEVER);
    expect("empty sheet", portal_score(NULL, 0, 0), PORTAL_NEVER + PORTAL_NO_TEXT);
    expect("no header", score("names\n", 0), PORTAL_NEVER + PORTAL_HEADER);
    expect("14 of the largest value", score(LARGEST, 14), 14 * PORTAL_MAX_VALUE);
    expect("one of the largest value", score(LARGEST, 16), PORTAL_MAX_VALUE);
    expect("a value too large", score(BEYOND, 0), PORTAL_NEVER + PORTAL_FORM);
    expect("is a value", (uint64_t)portal_is_value(score(SHEET, 4)), 1);
    expect("is never", (uint64_t)portal_is_never(score(ALONE, 0)), 1);
    expect("is a refusal", portal_refusal(score("names\n", 0)), 3);
    expect("is no refusal", portal_refusal(score(ALONE, 0)), 0);
}

static void try_risk(void)
{
    expect("risk of order", risk(SHEET, 4), 3);
    expect("risk of mail", risk(SHEET, 3), 1);
    expect("no such item, far off", risk(SHEET, UINT64_MAX), PORTAL_NEVER + PORTAL_NO_ITEM);
    expect("never lost", risk(ALONE, 0), PORTAL_NEVER);
    expect("the loss of one of the largest value", risk(LARGEST, 14), PORTAL_MAX_VALUE);
    expect("the loss of 14 of the largest value", risk(LARGEST, 16), 14 * PORTAL_MAX_VALUE);
    expect("a loss too large", risk(LOSS_BEYOND, 0), PORTAL_NEVER + PORTAL_FORM);
}

static void try_read(void)
{
    uint64_t words[WORDS + 1];
    words[WORDS] = LENT;
    struct portal_read_result r = portal_read(bytes(SHEET), strlen(SHEET), words, WORDS + 1);
    expect("reading", r.number, 0);
    expect("no line", r.line, 0);
    expect("item count", words[PORTAL_COUNT], 5);
    expect("kind of token", words[PORTAL_KIND(2)], 0);
    expect("kind of mail", words[PORTAL_KIND(3)], 1);
    expect("start of token", words[PORTAL_START(2)], 3);
    expect("loss of ordpw", words[PORTAL_LOSS(0)], 2);
    expect("start of mail", words[PORTAL_START(3)], PORTAL_BLANK);
    expect("rank of order", words[PORTAL_RANK(4)], 3);
    expect("order's colour 0", words[PORTAL_ROW(4, 0)], ORDPW + TOKEN);
    expect("order's colour 1", words[PORTAL_ROW(4, 1)], MAIL);
    expect("order's recovery", words[PORTAL_RECOVERY(4, 1)], MAIL);
    expect("no more recovery", words[PORTAL_RECOVERY(4, 0)], 0);
    expect("a place not in use", words[PORTAL_LOSS(63)], PORTAL_BLANK);
    expect("nothing is held, nothing opened", words[PORTAL_HELD] + words[PORTAL_OPENED], 0);
    expect("the word behind", words[WORDS], LENT);

    words[0] = LENT;
    r = portal_read(bytes(SHEET), strlen(SHEET), words, WORDS - 1);
    expect("buffer too short", r.number, PORTAL_SHORT);
    expect("buffer too short, no line", r.line, 0);
    expect("buffer too short, untouched", words[0], LENT);
    r = portal_read(bytes("names\n"), 6, words, WORDS - 1);
    expect("refused, buffer too short", r.number, PORTAL_HEADER);
    expect("refused, its line", r.line, 1);
    expect("refused, untouched", words[0], LENT);
    r = portal_read(bytes("names\n"), 6, words, WORDS);
    expect("refused", r.number, PORTAL_HEADER);
    expect("refused: no items", words[PORTAL_COUNT], 0);
    expect("refused: not in use", words[PORTAL_START(0)], PORTAL_BLANK);
    r = portal_read(NULL, 0, NULL, 0);
    expect("nothing at all", r.number, PORTAL_NO_TEXT);
}

static void try_name(void)
{
    struct portal_name_result p = portal_name(bytes(SHEET), strlen(SHEET), 2);
    expect("name", p.number, 0);
    expect("its length", p.length, 5);
    expect("its bytes", (uint64_t)memcmp(SHEET + p.start, "token ", 6), 0);
    p = portal_name(bytes(SHEET), strlen(SHEET), 5);
    expect("no such name", p.number, PORTAL_NO_ITEM);
    expect("the empty part", p.start + p.length, 0);
    p = portal_name(bytes("names\n"), 6, 0);
    expect("no sheet", p.number, PORTAL_HEADER);
    expect("the empty part again", p.start + p.length, 0);
}

static void try_check(void)
{
    expect("a setup", portal_check(setup, WORDS), 0);
    expect("no setup", portal_check(malformed, WORDS), PORTAL_NO_SETUP);
    expect("the largest value", portal_check(highest, WORDS), 0);
    expect("a start too large", portal_check(beyond, WORDS), PORTAL_NO_SETUP);
    expect("a loss too large", portal_check(loss_beyond, WORDS), PORTAL_NO_SETUP);
    expect("no words", portal_check(NULL, 0), PORTAL_NO_SETUP);
    expect("a word too few", portal_check(setup, WORDS - 1), PORTAL_NO_SETUP);
    uint64_t words[WORDS];
    for (int place = 0; place < PORTAL_MAX_ITEMS; place++) {
        memcpy(words, setup, sizeof words);
        words[PORTAL_KIND(place)] = 2;
        expect("another kind, in use or not", portal_check(words, WORDS), PORTAL_NO_SETUP);
    }
}

static void try_closure(void)
{
    struct portal_closure_result r = portal_closure(setup, WORDS, MAILPW);
    expect("closure", r.number, 0);
    expect("what mailpw opens", r.set, MAILPW + MAIL + ORDER);
    expect("passes", r.passes, 3);
    r = portal_closure(setup, WORDS, 0);
    expect("what nothing opens", r.set, 0);
    expect("the pass that adds nothing", r.passes, 1);
    r = portal_closure(setup, WORDS, 32);
    expect("outside", r.number, PORTAL_OUTSIDE);
    expect("outside, no set", r.set, 0);
    expect("outside, no passes", r.passes, 0);
    expect("closure in no setup", portal_closure(malformed, WORDS, 0).number, PORTAL_NO_SETUP);
}

static void try_lost(void)
{
    struct portal_lost_result r = portal_lost(setup, WORDS, MAILPW + TOKEN);
    expect("lost", r.number, 0);
    expect("what is lost", r.set, MAILPW + TOKEN + MAIL + ORDER);
    expect("lost, outside", portal_lost(setup, WORDS, UINT64_MAX).number, PORTAL_OUTSIDE);
}

static void try_way_in(void)
{
    uint8_t items[4] = { 9, 9, 9, 9 }, colours[4] = { 8, 8, 8, 8 };
    struct portal_way_in_result r = portal_way_in(setup, WORDS, ORDER_ITEM, MAILPW, items, 4, colours, 4);
    expect("way in", r.number, 0);
    expect("it opens", r.opens, 1);
    expect("its steps", r.steps, 2);
    expect("its items", (uint64_t)memcmp(items, "\3\4\11\11", 4), 0);
    expect("its colours", (uint64_t)memcmp(colours, "\0\1\10\10", 4), 0);
    r = portal_way_in(setup, WORDS, ORDER_ITEM, TOKEN, NULL, 0, NULL, 0);
    expect("shut", r.number, 0);
    expect("shut, so it opens not", r.opens + r.steps, 0);
    r = portal_way_in(setup, WORDS, ORDER_ITEM, MAILPW, items, 4, colours, 1);
    expect("list too short", r.number, PORTAL_SHORT);
    expect("list too short, no values", r.opens + r.steps, 0);
    expect("list too short, untouched", (uint64_t)memcmp(items, "\3\4\11\11", 4), 0);
}

static void try_opens(void)
{
    uint64_t all = ORDPW + MAILPW + TOKEN;
    struct portal_opens_result r = portal_opens(setup, WORDS, MAIL_ITEM, all);
    expect("quick yes", r.number, 0);
    expect("it is a yes", r.opens, 1);
    expect("held once mail is, which order is not yet", r.set, all + MAIL);
    expect("mail is the lower item on the way to order", portal_opens(setup, WORDS, ORDER_ITEM, all).set, all + MAIL + ORDER);
    expect("a held target gives the given set", portal_opens(setup, WORDS, 1, MAILPW).set, MAILPW);
    r = portal_opens(setup, WORDS, 0, MAILPW);
    expect("quick no", r.number + r.opens, 0);
    expect("the closure on a no", r.set, MAILPW + MAIL + ORDER);
    r = portal_opens(setup, WORDS, 5, UINT64_MAX);
    expect("quick yes of no item, before the set is asked", r.number, PORTAL_NO_ITEM);
    expect("quick yes of no item, no values", r.opens + r.set, 0);
    expect("quick yes, outside", portal_opens(setup, WORDS, ORDER_ITEM, 32).number, PORTAL_OUTSIDE);
    expect("quick yes in no setup", portal_opens(malformed, WORDS, 5, 32).number, PORTAL_NO_SETUP);
}

static void try_forecast(void)
{
    struct portal_forecast_result r = portal_forecast(setup, WORDS, ORDER_ITEM);
    expect("forecast", r.number, 0);
    expect("of three that reach order, through mail too", r.sets, 3);
    expect("of one that reaches mail", portal_forecast(setup, WORDS, MAIL_ITEM).sets, 1);
    expect("of 14 that reach item 16", portal_forecast(fourteen, WORDS, 16).sets, PORTAL_MAX_LIST);
    r = portal_forecast(setup, WORDS, 5);
    expect("forecast of no item", r.number, PORTAL_NO_ITEM);
    expect("forecast of no item, no value", r.sets, 0);
    expect("forecast in no setup", portal_forecast(malformed, WORDS, 5).number, PORTAL_NO_SETUP);
}

/* Kinds for SHEET: the order's password takes some skill, the mail's an expert, both remote; the token a local one without skill. */
static void try_kinds(void)
{
    uint8_t list[5] = { PORTAL_INTRUDER(0, 1), PORTAL_INTRUDER(0, 2), PORTAL_INTRUDER(1, 0), 255, 255 }, lent[5];
    const uint8_t strange[6] = { 0, 6, 0, 0, 0, 0 };
    struct portal_kinds_result r;
    memcpy(lent, list, sizeof list);
    r = portal_kinds(setup, WORDS, ORDER_ITEM, list, 5);
    expect("kinds", r.number, 0);
    expect("remote experts, and local ones with some skill", r.kinds, 1 << 2 | 1 << 4);
    expect("by the mail password alone", portal_kinds(setup, WORDS, MAIL_ITEM, list, 5).kinds, 1 << 2);
    expect("nothing lent is written", (uint64_t)memcmp(list, lent, sizeof list), 0);
    r = portal_kinds(setup, WORDS, ORDER_ITEM, strange, 5);
    expect("no such kind", r.number, PORTAL_NO_KIND);
    expect("no such kind, no value", r.kinds, 0);
    expect("a list too long", portal_kinds(setup, WORDS, ORDER_ITEM, strange, 6).number, PORTAL_KINDS_LENGTH);
    expect("no list", portal_kinds(setup, WORDS, ORDER_ITEM, NULL, 0).number, PORTAL_KINDS_LENGTH);
    expect("kinds of no item", portal_kinds(setup, WORDS, 5, NULL, 0).number, PORTAL_NO_ITEM);
    expect("kinds in no setup", portal_kinds(malformed, WORDS, 5, NULL, 0).number, PORTAL_NO_SETUP);
}

static void try_lists(void)
{
    uint64_t sets[5] = { LENT, LENT, LENT, LENT, LENT };
    struct portal_lists_result r = portal_lists(setup, WORDS, ORDER_ITEM, sets, 3);
    expect("lists too short", r.number, PORTAL_SHORT);
    expect("lists untouched", sets[0], LENT);
    r = portal_lists(setup, WORDS, ORDER_ITEM, sets, 5);
    expect("lists", r.number, 0);
    expect("openings", r.openings, 2);
    expect("lockouts", r.lockouts, 2);
    expect("first opening", sets[0], MAILPW);
    expect("second opening", sets[1], ORDPW + TOKEN);
    expect("first lockout", sets[2], ORDPW + MAILPW);
    expect("second lockout", sets[3], MAILPW + TOKEN);
    expect("the place behind", sets[4], LENT);
    expect("lists of no item", portal_lists(setup, WORDS, 5, sets, 5).number, PORTAL_NO_ITEM);
}

static void try_cut_sets(void)
{
    uint64_t sets[3] = { LENT, LENT, LENT };
    struct portal_cut_sets_result r = portal_cut_sets(setup, WORDS, ORDER_ITEM, sets, 1);
    expect("cut sets, too short", r.number, PORTAL_SHORT);
    expect("cut sets, too short, no value", r.count, 0);
    expect("cut sets, too short, untouched", sets[0], LENT);
    r = portal_cut_sets(setup, WORDS, ORDER_ITEM, sets, 3);
    expect("cut sets", r.number, 0);
    expect("two cut sets", r.count, 2);
    expect("first cut set", sets[0], ORDPW + MAILPW);
    expect("second cut set", sets[1], MAILPW + TOKEN);
    expect("the place behind the cut sets", sets[2], LENT);
    r = portal_cut_sets(ring, WORDS, 0, sets, 1);
    expect("one cut set of two that open each other", r.count, 1);
    expect("which has both", sets[0], 3);
    r = portal_cut_sets(alone, WORDS, 0, NULL, 0);
    expect("the empty cut set has no room", r.number, PORTAL_SHORT);
    r = portal_cut_sets(alone, WORDS, 0, sets, 1);
    expect("nothing opens it: one cut set", r.count, 1);
    expect("nothing opens it: the empty one", sets[0], 0);
    expect("cut sets of no item", portal_cut_sets(setup, WORDS, 5, sets, 3).number, PORTAL_NO_ITEM);
    expect("cut sets in no setup", portal_cut_sets(malformed, WORDS, 5, sets, 3).number, PORTAL_NO_SETUP);
}

static void try_bag_at_most(void)
{
    const uint64_t two[2] = { 1, 1 }, one[1] = { 2 }, low[2] = { 3, 0 }, high[1] = { 4 }, turned[2] = { 0, 4 };
    const uint64_t long_one[15] = { 0 };
    expect("two of 1 and one of 2", portal_bag_at_most(two, 2, one, 1), 0);
    expect("one of 2 and two of 1", portal_bag_at_most(one, 1, two, 2), 0);
    expect("0 is a value", portal_bag_at_most(low, 2, high, 1), 0);
    expect("any order", portal_bag_at_most(low, 2, turned, 2), 1);
    expect("itself", portal_bag_at_most(two, 2, two, 2), 1);
    expect("nothing and nothing", portal_bag_at_most(NULL, 0, NULL, 0), 1);
    expect("14 values", portal_bag_at_most(long_one, 14, long_one, 14), 1);
    expect("15 values are no bag", portal_bag_at_most(NULL, 0, long_one, 15), 0);
}

static void try_bag_score(void)
{
    uint64_t values[2 * PORTAL_BAG_PLACES], lengths[2];
    for (size_t i = 0; i < 2 * PORTAL_BAG_PLACES; i++)
        values[i] = LENT;
    lengths[0] = lengths[1] = LENT;
    struct portal_bag_score_result r = portal_bag_score(setup, WORDS, ORDER_ITEM, values, PORTAL_BAG_PLACES - 1, lengths, 2);
    expect("bag score, too few places", r.number, PORTAL_SHORT);
    expect("bag score, too few places, no value", r.bags, 0);
    expect("bag score, too few places, untouched", values[0], LENT);
    expect("bag score, too few places, lengths untouched", lengths[0], LENT);
    r = portal_bag_score(setup, WORDS, ORDER_ITEM, values, 2 * PORTAL_BAG_PLACES, NULL, 0);
    expect("bag score, no lengths", r.number, PORTAL_SHORT);
    expect("bag score, no lengths, untouched", values[0], LENT);
    r = portal_bag_score(setup, WORDS, ORDER_ITEM, values, 2 * PORTAL_BAG_PLACES, lengths, 2);
    expect("bag score", r.number, 0);
    expect("one bag", r.bags, 1);
    expect("its value", values[0], 1);
    expect("a place not used", values[1], 0);
    expect("its last place", values[PORTAL_BAG_PLACES - 1], 0);
    expect("the place behind the bag", values[PORTAL_BAG_PLACES], LENT);
    expect("its length", lengths[0], 1);
    expect("the place behind the length", lengths[1], LENT);
    r = portal_bag_score(alone, WORDS, 0, NULL, 0, NULL, 0);
    expect("nothing opens it: no bag", r.number, 0);
    expect("nothing opens it: none", r.bags, 0);
    expect("bag score of no item", portal_bag_score(setup, WORDS, 5, values, 28, lengths, 2).number, PORTAL_NO_ITEM);
    expect("bag score in no setup", portal_bag_score(malformed, WORDS, 5, values, 28, lengths, 2).number, PORTAL_NO_SETUP);
}

/* While the drawing changes: the edge by which mail opens order goes. */
static void try_next_opening(void)
{
    uint64_t drawn[WORDS];
    memcpy(drawn, setup, sizeof setup);
    struct portal_next_opening_result r = portal_next_opening(drawn, WORDS, ORDER_ITEM, 0);
    expect("next opening", r.number, 0);
    expect("there is more", r.more, 1);
    expect("the first opening", r.set, MAILPW);
    expect("the second opening", portal_next_opening(drawn, WORDS, ORDER_ITEM, r.set).set, ORDPW + TOKEN);
    r = portal_next_opening(drawn, WORDS, ORDER_ITEM, ORDPW + TOKEN);
    expect("no more", r.number + r.more + r.set, 0);
    expect("the edge goes", portal_remove_edge(drawn, WORDS, MAIL_ITEM, ORDER_ITEM, 1), 0);
    expect("the first opening, redrawn", portal_next_opening(drawn, WORDS, ORDER_ITEM, 0).set, ORDPW + TOKEN);
    expect("after one that has left the list", portal_next_opening(drawn, WORDS, ORDER_ITEM, MAILPW).set, ORDPW + TOKEN);
    expect("after one that never was in it", portal_next_opening(setup, WORDS, ORDER_ITEM, TOKEN).set, ORDPW + TOKEN);
    expect("after all starting items", portal_next_opening(setup, WORDS, ORDER_ITEM, ORDPW + MAILPW + TOKEN).more, 0);
    r = portal_next_opening(setup, WORDS, ORDER_ITEM, MAIL);
    expect("after a set with another item", r.number, PORTAL_STRANGER);
    expect("after a set with another item, no values", r.more + r.set, 0);
    expect("after an item beyond the count", portal_next_opening(setup, WORDS, ORDER_ITEM, UINT64_MAX).number, PORTAL_STRANGER);
    expect("next opening of no item", portal_next_opening(setup, WORDS, 5, MAIL).number, PORTAL_NO_ITEM);
    expect("next opening in no setup", portal_next_opening(malformed, WORDS, 5, MAIL).number, PORTAL_NO_SETUP);
}

/* ---- a setup that lives */

/* A call is refused with its number, and the buffer has every word that it had. */
static void refused(const char *what, const uint64_t before[WORDS], const uint64_t drawn[WORDS], uint64_t got, uint64_t wanted)
{
    expect(what, got, wanted);
    expect(what, (uint64_t)memcmp(before, drawn, WORDS * sizeof drawn[0]), 0);
}

/* A call is answered, and then this is held and this opened. */
static void lives(const char *what, const uint64_t drawn[WORDS], uint64_t got, uint64_t held, uint64_t opened)
{
    expect(what, got, 0);
    expect(what, drawn[PORTAL_HELD], held);
    expect(what, drawn[PORTAL_OPENED], opened);
    expect(what, portal_check(drawn, WORDS), 0);
}

/* SHEET's setup with something held that opens more than stands there. */
static void make_stale(uint64_t words[WORDS])
{
    memcpy(words, setup, WORDS * sizeof words[0]);
    words[PORTAL_HELD] = MAILPW;
    words[PORTAL_OPENED] = MAILPW + MAIL;
}

/* A freshly read setup holds nothing; and a shorter buffer is no setup, whatever it holds. */
static void try_take_in(void)
{
    uint64_t drawn[WORDS + 1], before[WORDS];
    memcpy(drawn, setup, sizeof setup);
    drawn[WORDS] = LENT;
    lives("nothing is held after reading", drawn, 0, 0, 0);
    lives("the token in", drawn, portal_take_in(drawn, WORDS + 1, 2), TOKEN, TOKEN);
    lives("the mail password in", drawn, portal_take_in(drawn, WORDS, 1), TOKEN + MAILPW, TOKEN + MAILPW + MAIL + ORDER);
    memcpy(before, drawn, sizeof before);
    lives("a held item in", drawn, portal_take_in(drawn, WORDS, 1), TOKEN + MAILPW, TOKEN + MAILPW + MAIL + ORDER);
    expect("a held item in changes nothing", (uint64_t)memcmp(before, drawn, sizeof before), 0);
    refused("no item in", before, drawn, portal_take_in(drawn, WORDS, 5), PORTAL_NO_ITEM);
    refused("no item in, far off", before, drawn, portal_take_in(drawn, WORDS, UINT64_MAX), PORTAL_NO_ITEM);
    refused("too short for what is opened", before, drawn, portal_take_in(drawn, PORTAL_OPENED, 0), PORTAL_NO_SETUP);
    lives("an opened item in", drawn, portal_take_in(drawn, WORDS, MAIL_ITEM), TOKEN + MAILPW + MAIL, TOKEN + MAILPW + MAIL + ORDER);
    expect("the word behind a setup that lives", drawn[WORDS], LENT);

    memcpy(drawn, setup, sizeof setup);
    memcpy(before, setup, sizeof setup);
    refused("no word to hold in", before, drawn, portal_take_in(drawn, PORTAL_HELD, 1), PORTAL_NO_SETUP);
    refused("no word to open in", before, drawn, portal_take_in(drawn, PORTAL_OPENED, 1), PORTAL_NO_SETUP);
    refused("too short, and no item", before, drawn, portal_take_in(drawn, PORTAL_HELD, 5), PORTAL_NO_SETUP);
    drawn[PORTAL_KIND(MAIL_ITEM)] = before[PORTAL_KIND(MAIL_ITEM)] = 7;
    refused("another kind", before, drawn, portal_take_in(drawn, WORDS, 1), PORTAL_NO_SETUP);
    expect("no words to hold in", portal_take_in(NULL, 0, 0), PORTAL_NO_SETUP);
}

static void try_take_out(void)
{
    uint64_t drawn[WORDS], before[WORDS];
    memcpy(drawn, setup, sizeof setup);
    lives("one not held out", drawn, portal_take_out(drawn, WORDS, 0), 0, 0);
    lives("the mail password in", drawn, portal_take_in(drawn, WORDS, 1), MAILPW, MAILPW + MAIL + ORDER);
    lives("mail in, which is open", drawn, portal_take_in(drawn, WORDS, MAIL_ITEM), MAILPW + MAIL, MAILPW + MAIL + ORDER);
    lives("mail out, which the password opens", drawn, portal_take_out(drawn, WORDS, MAIL_ITEM), MAILPW, MAILPW + MAIL + ORDER);
    memcpy(before, drawn, sizeof before);
    refused("no item out", before, drawn, portal_take_out(drawn, WORDS, 5), PORTAL_NO_ITEM);
    lives("the mail password out", drawn, portal_take_out(drawn, WORDS, 1), 0, 0);
    memcpy(before, drawn, sizeof before);
    lives("one not held out again", drawn, portal_take_out(drawn, WORDS, 1), 0, 0);
    expect("one not held out changes nothing", (uint64_t)memcmp(before, drawn, sizeof before), 0);
    refused("too short to take out", before, drawn, portal_take_out(drawn, PORTAL_OPENED, 1), PORTAL_NO_SETUP);
    lives("a ring as read", ring, 0, 0, 0);
    memcpy(drawn, ring, sizeof ring);
    lives("it opens the other", drawn, portal_take_in(drawn, WORDS, 0), 1, 3);
    lives("and they don't hold each other", drawn, portal_take_out(drawn, WORDS, 0), 0, 0);
}

/* An afternoon: opening is not monotone in the edges. An edge more may shut, and an edge less may open. */
static void try_add_edge(void)
{
    uint64_t drawn[WORDS], before[WORDS];
    memcpy(drawn, setup, sizeof setup);
    lives("the mail password in", drawn, portal_take_in(drawn, WORDS, 1), MAILPW, MAILPW + MAIL + ORDER);
    lives("mail needs the token too", drawn, portal_add_edge(drawn, WORDS, 2, MAIL_ITEM, 0, false), MAILPW, MAILPW);
    expect("the row has both", drawn[PORTAL_ROW(MAIL_ITEM, 0)], MAILPW + TOKEN);
    expect("neither is marked", drawn[PORTAL_RECOVERY(MAIL_ITEM, 0)], 0);
    lives("another way, by recovery", drawn, portal_add_edge(drawn, WORDS, 1, MAIL_ITEM, 7, true), MAILPW, MAILPW + MAIL + ORDER);
    expect("its mark", drawn[PORTAL_RECOVERY(MAIL_ITEM, 7)], MAILPW);
    lives("a third way, by recovery", drawn, portal_add_edge(drawn, WORDS, 0, MAIL_ITEM, 6, true), MAILPW, MAILPW + MAIL + ORDER);
    expect("its mark too", drawn[PORTAL_RECOVERY(MAIL_ITEM, 6)], ORDPW);
    memcpy(before, drawn, sizeof before);
    refused("from no item", before, drawn, portal_add_edge(drawn, WORDS, 5, 0, 8, false), PORTAL_NO_ITEM);
    refused("to no item", before, drawn, portal_add_edge(drawn, WORDS, 0, 5, 8, false), PORTAL_NO_ITEM);
    refused("colour 8", before, drawn, portal_add_edge(drawn, WORDS, 2, MAIL_ITEM, 8, false), PORTAL_NO_COLOUR);
    refused("a colour far off", before, drawn, portal_add_edge(drawn, WORDS, 2, MAIL_ITEM, UINT64_MAX, false), PORTAL_NO_COLOUR);
    refused("there already", before, drawn, portal_add_edge(drawn, WORDS, 2, MAIL_ITEM, 0, false), PORTAL_EDGE_THERE);
    refused("there without a mark", before, drawn, portal_add_edge(drawn, WORDS, 2, MAIL_ITEM, 0, true), PORTAL_EDGE_THERE);
    refused("there with a mark", before, drawn, portal_add_edge(drawn, WORDS, 1, MAIL_ITEM, 7, false), PORTAL_EDGE_THERE);
    make_stale(drawn);
    memcpy(before, drawn, sizeof before);
    refused("no setup to draw in, left stale", before, drawn, portal_add_edge(drawn, WORDS, 5, 5, 8, false), PORTAL_NO_SETUP);
}

/* Until the drawing is full: 21 items have room for 441 edges of one colour. */
static void try_full_drawing(void)
{
    static const char TWENTY_ONE[] =
        "name kind start loss rank\na a - - 0\nb a - - 0\nc a - - 0\nd a - - 0\ne a - - 0\nf a - - 0\ng a - - 0\n"
        "h a - - 0\ni a - - 0\nj a - - 0\nk a - - 0\nl a - - 0\nm a - - 0\nn a - - 0\no a - - 0\np a - - 0\nq a - - 0\n"
        "r a - - 0\ns a - - 0\nt a - - 0\nu a - - 0\n\nfrom to colour rec\n";
    uint64_t drawn[WORDS], before[WORDS];
    expect("21 items", portal_read(bytes(TWENTY_ONE), strlen(TWENTY_ONE), drawn, WORDS).number, 0);
    for (uint64_t i = 0; i < 256; i++)
        expect("one of 256 edges", portal_add_edge(drawn, WORDS, i % 21, i / 21, 5, i % 2 == 1), 0);
    memcpy(before, drawn, sizeof before);
    refused("the 257th edge", before, drawn, portal_add_edge(drawn, WORDS, 20, 20, 5, false), PORTAL_BOUND);
    refused("one that is there, in a full drawing", before, drawn, portal_add_edge(drawn, WORDS, 0, 0, 5, true), PORTAL_EDGE_THERE);
    refused("no colour, in a full drawing", before, drawn, portal_add_edge(drawn, WORDS, 20, 20, 8, false), PORTAL_NO_COLOUR);
    expect("room again", portal_remove_edge(drawn, WORDS, 0, 0, 5), 0);
    expect("the 256th edge", portal_add_edge(drawn, WORDS, 20, 20, 5, false), 0);
}

static void try_remove_edge(void)
{
    uint64_t drawn[WORDS], before[WORDS];
    memcpy(drawn, setup, sizeof setup);
    lives("the order password in", drawn, portal_take_in(drawn, WORDS, 0), ORDPW, ORDPW);
    memcpy(before, drawn, sizeof before);
    refused("another colour", before, drawn, portal_remove_edge(drawn, WORDS, 2, ORDER_ITEM, 1), PORTAL_NO_EDGE);
    refused("the other way round", before, drawn, portal_remove_edge(drawn, WORDS, ORDER_ITEM, 2, 0), PORTAL_NO_EDGE);
    refused("colour 8 of no edge", before, drawn, portal_remove_edge(drawn, WORDS, 2, ORDER_ITEM, 8), PORTAL_NO_COLOUR);
    refused("from no item", before, drawn, portal_remove_edge(drawn, WORDS, 64, ORDER_ITEM, 0), PORTAL_NO_ITEM);
    refused("to no item", before, drawn, portal_remove_edge(drawn, WORDS, 2, 64, 0), PORTAL_NO_ITEM);
    lives("the token is needed no more", drawn, portal_remove_edge(drawn, WORDS, 2, ORDER_ITEM, 0), ORDPW, ORDPW + ORDER);
    lives("and nothing is a way", drawn, portal_remove_edge(drawn, WORDS, 0, ORDER_ITEM, 0), ORDPW, ORDPW);
    lives("the marked edge goes", drawn, portal_remove_edge(drawn, WORDS, MAIL_ITEM, ORDER_ITEM, 1), ORDPW, ORDPW);
    expect("with its mark", drawn[PORTAL_ROW(ORDER_ITEM, 1)] + drawn[PORTAL_RECOVERY(ORDER_ITEM, 1)], 0);
    lives("and comes back without it", drawn, portal_add_edge(drawn, WORDS, MAIL_ITEM, ORDER_ITEM, 1, false), ORDPW, ORDPW);
    memcpy(drawn, setup, sizeof setup);
    refused("too short to remove", setup, drawn, portal_remove_edge(drawn, PORTAL_OPENED, 2, ORDER_ITEM, 0), PORTAL_NO_SETUP);
    refused("too short, and no edge", setup, drawn, portal_remove_edge(drawn, PORTAL_OPENED, 2, ORDER_ITEM, 1), PORTAL_NO_SETUP);
}

/* The other calls refuse a stale setup, and pay no heed to what is held in one that isn't. */
static void try_held(void)
{
    uint64_t stale[WORDS], held[WORDS], sets[4];
    uint8_t items[1], colours[1], list[5] = { 0, 0, 0, 0, 0 };
    struct portal_record records[1];
    memset(records, 0, sizeof records);
    memcpy(stale, ring, sizeof ring);
    stale[PORTAL_OPENED] = 3;
    expect("a ring that holds itself up", portal_check(stale, WORDS), PORTAL_NO_SETUP);
    memcpy(stale, setup, sizeof setup);
    stale[PORTAL_HELD] = stale[PORTAL_OPENED] = ORDER << 1;
    expect("held, the item behind the last", portal_check(stale, WORDS), PORTAL_NO_SETUP);
    stale[PORTAL_OPENED] = 0;
    expect("held, the item behind the last, not opened", portal_check(stale, WORDS), PORTAL_NO_SETUP);
    make_stale(stale);
    expect("check", portal_check(stale, WORDS), PORTAL_NO_SETUP);
    expect("closure", portal_closure(stale, WORDS, 0).number, PORTAL_NO_SETUP);
    expect("lost", portal_lost(stale, WORDS, 0).number, PORTAL_NO_SETUP);
    expect("way in", portal_way_in(stale, WORDS, 0, 1, items, 1, colours, 1).number, PORTAL_NO_SETUP);
    expect("opens", portal_opens(stale, WORDS, 0, 1).number, PORTAL_NO_SETUP);
    expect("forecast", portal_forecast(stale, WORDS, 0).number, PORTAL_NO_SETUP);
    expect("kinds", portal_kinds(stale, WORDS, 0, list, 5).number, PORTAL_NO_SETUP);
    expect("lists", portal_lists(stale, WORDS, 0, sets, 4).number, PORTAL_NO_SETUP);
    expect("cut sets", portal_cut_sets(stale, WORDS, 0, sets, 4).number, PORTAL_NO_SETUP);
    expect("next opening", portal_next_opening(stale, WORDS, 0, 0).number, PORTAL_NO_SETUP);
    expect("bag score", portal_bag_score(stale, WORDS, 0, sets, 4, NULL, 0).number, PORTAL_NO_SETUP);
    expect("score", portal_setup_score(stale, WORDS, 0).number, PORTAL_NO_SETUP);
    expect("risk", portal_setup_risk(stale, WORDS, 0).number, PORTAL_NO_SETUP);
    expect("marks", portal_mark_openings(stale, WORDS, 0, NULL, 0).number, PORTAL_NO_SETUP);
    expect("marks", portal_mark_lockouts(stale, WORDS, 0, NULL, 0).number, PORTAL_NO_SETUP);
    expect("hand in", portal_hand_in(stale, WORDS, records, 1, 0, 7, 0, false, NULL, 0).number, PORTAL_NO_SETUP);
    expect("hand in, 25 first", portal_hand_in(stale, WORDS, records, 1, 2, 7, 0, false, NULL, 0).number, PORTAL_OVERFULL);
    expect("backdoor", portal_backdoor(stale, WORDS, 0).number, PORTAL_NO_SETUP);
    expect("idle", portal_idle(stale, WORDS, 0).number, PORTAL_NO_SETUP);
    expect("out of rank", portal_out_of_rank(stale, WORDS, 0, 0).number, PORTAL_NO_SETUP);
    expect("take in", portal_take_in(stale, WORDS, 0), PORTAL_NO_SETUP);
    expect("take out", portal_take_out(stale, WORDS, 0), PORTAL_NO_SETUP);
    expect("add", portal_add_edge(stale, WORDS, 0, 0, 0, false), PORTAL_NO_SETUP);
    expect("remove", portal_remove_edge(stale, WORDS, 1, 3, 0), PORTAL_NO_SETUP);

    memcpy(held, setup, sizeof setup);
    expect("all in", portal_take_in(held, WORDS, 0) + portal_take_in(held, WORDS, 1) + portal_take_in(held, WORDS, 2), 0);
    expect("a score, with all held", portal_setup_score(held, WORDS, ORDER_ITEM).score, 1);
    expect("a closure, with all held", portal_closure(held, WORDS, TOKEN).set, TOKEN);
    expect("lists, with all held", portal_lists(held, WORDS, ORDER_ITEM, sets, 4).openings, 2);
    expect("the first opening, with all held", sets[0], MAILPW);
    expect("a quick no, with all held", portal_opens(held, WORDS, ORDER_ITEM, TOKEN).opens, 0);

    memcpy(held, setup, sizeof setup);
    expect("a way by recovery alone", portal_remove_edge(held, WORDS, 2, ORDER_ITEM, 0) + portal_remove_edge(held, WORDS, 0, ORDER_ITEM, 0), 0);
    expect("recovery is a backdoor still", portal_backdoor(held, WORDS, ORDER_ITEM).yes, 1);
    expect("the marked edge goes", portal_remove_edge(held, WORDS, MAIL_ITEM, ORDER_ITEM, 1), 0);
    expect("and comes back without its mark", portal_add_edge(held, WORDS, MAIL_ITEM, ORDER_ITEM, 1, false), 0);
    expect("recovery is no backdoor", portal_backdoor(held, WORDS, ORDER_ITEM).yes, 0);
}

/* A refusal has its number, sheet and line, the length 0, and a buffer as it was. */
/* A drawing saved: as it was read, redrawn, in just enough room and in one byte less; and the refusals in their order. */
static void try_write_sheet(void)
{
    static const char redrawn[] =
        "name kind start loss rank\nordpw c 1 2 0\nmailpw c 1 1 0\ntoken c 3 2 0\nmail a - - 1\norder a - - 3\n\nfrom to colour rec\n"
        "mailpw mail 0 0\nordpw order 0 0\ntoken order 0 0\ntoken order 7 1\n";
    const uint8_t *sheet = (const uint8_t *)SHEET;
    size_t n = sizeof SHEET - 1, m = sizeof redrawn - 1;
    uint64_t drawing[WORDS], again[WORDS];
    uint8_t out[PORTAL_SAVE_BYTES];
    memset(out, '#', sizeof out);
    struct portal_write_sheet_result r = portal_write_sheet(sheet, n, setup, WORDS, out, sizeof out);
    expect("saved", r.number, 0);
    expect("saved, its length", r.length, n);
    expect("saved, its bytes", (uint64_t)memcmp(out, SHEET, n), 0);
    expect("saved, the byte behind", out[n], '#');
    memcpy(drawing, setup, sizeof drawing);
    expect("held", portal_take_in(drawing, WORDS, 1), 0);
    expect("an edge more", portal_add_edge(drawing, WORDS, 2, ORDER_ITEM, 7, true), 0);
    expect("an edge less", portal_remove_edge(drawing, WORDS, MAIL_ITEM, ORDER_ITEM, 1), 0);
    r = portal_write_sheet(sheet, n, drawing, WORDS, out, m);
    expect("saved, just enough room", r.number, 0);
    expect("saved redrawn, its length", r.length, m);
    expect("saved redrawn, its bytes", (uint64_t)memcmp(out, redrawn, m), 0);
    expect("read again", portal_read(out, r.length, again, WORDS).number, 0);
    drawing[PORTAL_HELD] = drawing[PORTAL_OPENED] = 0;
    expect("read again, the same drawing", (uint64_t)memcmp(drawing, again, sizeof again), 0);
    memset(out, '#', sizeof out);
    r = portal_write_sheet(sheet, n, drawing, WORDS, out, m - 1);
    expect("saved, no room", r.number, PORTAL_SHORT);
    expect("saved, no room: length", r.length, 0);
    expect("saved, no room: first byte", out[0], '#');
    expect("saved, no names", portal_write_sheet((const uint8_t *)ALONE, sizeof ALONE - 1, setup, WORDS, out, sizeof out).number, PORTAL_NO_ITEM);
    expect("saved, no setup", portal_write_sheet((const uint8_t *)ALONE, sizeof ALONE - 1, malformed, WORDS, out, sizeof out).number, PORTAL_NO_SETUP);
    expect("saved, a refused sheet", portal_write_sheet(sheet, n - 1, malformed, WORDS, out, sizeof out).number, PORTAL_NO_TEXT);
    expect("saved, refused: first byte", out[0], '#');
    expect("saved, nothing at all", portal_write_sheet(NULL, 0, NULL, 0, NULL, 0).number, PORTAL_NO_TEXT);
}

static struct portal_read_set_result names(const char *text)
{
    return portal_read_set((const uint8_t *)SHEET, sizeof SHEET - 1, (const uint8_t *)text, strlen(text));
}

/* A set by its names, in any order; and each no of a name. */
static void try_read_set(void)
{
    expect("names", names("token+mailpw").set, TOKEN | MAILPW);
    expect("names, all", names("order+mail+token+mailpw+ordpw").set, 31);
    expect("names, one", names("order").set, UINT64_C(1) << ORDER_ITEM);
    expect("no names", names("-").set, 0);
    expect("no names, the number", names("-").number, 0);
    static const struct { const char *text; uint64_t number; } wrong[] = {
        { "", PORTAL_FORM }, { "mailpw+", PORTAL_FORM }, { "+mailpw", PORTAL_FORM }, { "mailpw++token", PORTAL_FORM }, { "Mail", PORTAL_FORM },
        { "-+mail", PORTAL_FORM }, { "mailpwd", PORTAL_NAME_UNKNOWN }, { "mai", PORTAL_NAME_UNKNOWN }, { "mail+token+mail", PORTAL_NAME_USED },
        { "mail+mail+x", PORTAL_NAME_USED }, { "mail+x+mail", PORTAL_NAME_UNKNOWN },
    };
    for (size_t i = 0; i < sizeof wrong / sizeof wrong[0]; i++) {
        struct portal_read_set_result r = names(wrong[i].text);
        expect(wrong[i].text, r.number, wrong[i].number);
        expect("whose", r.text, 2);
        expect("where", r.place, 0);
        expect("no set", r.set, 0);
    }
    struct portal_read_set_result r = portal_read_set((const uint8_t *)BEYOND, sizeof BEYOND - 1, (const uint8_t *)"a", 1);
    expect("names, a refused sheet", r.number, PORTAL_FORM);
    expect("the sheet's", r.text, 1);
    expect("its line", r.place, 2);
    expect("names, nothing at all", portal_read_set(NULL, 0, NULL, 0).number, PORTAL_NO_TEXT);
}

/* The names of a set: rising, in just enough room and in one byte less. */
static void try_write_set(void)
{
    const uint8_t *sheet = (const uint8_t *)SHEET;
    size_t n = sizeof SHEET - 1;
    uint8_t out[PORTAL_SET_BYTES];
    memset(out, '#', sizeof out);
    struct portal_write_set_result r = portal_write_set(sheet, n, TOKEN | MAILPW, out, 12);
    expect("written", r.number, 0);
    expect("written, its length", r.length, 12);
    expect("written, its bytes", (uint64_t)memcmp(out, "mailpw+token#", 13), 0);
    memset(out, '#', sizeof out);
    expect("written, no room", portal_write_set(sheet, n, TOKEN | MAILPW, out, 11).number, PORTAL_SHORT);
    expect("written, no room: first byte", out[0], '#');
    r = portal_write_set(sheet, n, 0, out, 1);
    expect("the empty set", r.length, 1);
    expect("the empty set, its sign", out[0], '-');
    expect("the empty set, the byte behind", out[1], '#');
    expect("the empty set, no room", portal_write_set(sheet, n, 0, NULL, 0).number, PORTAL_SHORT);
    expect("another item", portal_write_set(sheet, n, 32, out, sizeof out).number, PORTAL_OUTSIDE);
    expect("item 63", portal_write_set(sheet, n, UINT64_C(1) << 63, out, sizeof out).number, PORTAL_OUTSIDE);
    expect("written, a refused sheet", portal_write_set(sheet, n - 1, 32, out, sizeof out).number, PORTAL_NO_TEXT);
}

static struct portal_read_line_result said(const char *line, uint64_t *sets, size_t places)
{
    return portal_read_line((const uint8_t *)SHEET, sizeof SHEET - 1, (const uint8_t *)line, strlen(line), sets, places);
}

/* What a line says; and each no, with its field. */
static void try_read_line(void)
{
    uint64_t sets[4] = { 77, 77, 77, 77 };
    struct portal_read_line_result r = said("1017 order lock token+mailpw - mail", sets, 3);
    expect("a line", r.number, 0);
    expect("a line, no withdrawal", r.withdraws, 0);
    expect("a line, the student", r.student, 1017);
    expect("a line, the target", r.target, ORDER_ITEM);
    expect("a line, the way", r.lock, 1);
    expect("a line, its sets", r.count, 3);
    expect("a line, the first set", sets[0], TOKEN | MAILPW);
    expect("a line, the empty set", sets[1], 0);
    expect("a line, the last set", sets[2], UINT64_C(1) << MAIL_ITEM);
    expect("a line, the place behind", sets[3], 77);
    r = said("0 mail open", NULL, 0);
    expect("a line without sets", r.number + r.withdraws + r.lock + r.count, 0);
    r = said("4000000000 withdraw", NULL, 0);
    expect("a withdrawal", r.withdraws, 1);
    expect("a withdrawal, the student", r.student, UINT64_C(4000000000));
    static const struct { const char *line; uint64_t number, field; } wrong[] = {
        { "1017 order\topen", PORTAL_NO_TEXT, 0 }, { "", PORTAL_FIELDS, 1 }, { "1017", PORTAL_FIELDS, 2 }, { "1017 order", PORTAL_FIELDS, 3 },
        { "1017 order open ", PORTAL_FIELDS, 4 }, { "1017  order open", PORTAL_FIELDS, 2 }, { " 1017 order open", PORTAL_FIELDS, 1 },
        { "4000000001 order open", PORTAL_FORM, 1 }, { "017 withdraw", PORTAL_FORM, 1 }, { "1017 Order open", PORTAL_FORM, 2 },
        { "1017 orders open", PORTAL_NAME_UNKNOWN, 2 }, { "1017 order shut", PORTAL_FORM, 3 }, { "1017 order open mail,token", PORTAL_FORM, 4 },
        { "1017 order open mail mailpwd", PORTAL_NAME_UNKNOWN, 5 }, { "1017 order open mail - mail+mail", PORTAL_NAME_USED, 6 },
    };
    for (size_t i = 0; i < sizeof wrong / sizeof wrong[0]; i++) {
        sets[0] = 77;
        r = said(wrong[i].line, sets, 4);
        expect(wrong[i].line, r.number, wrong[i].number);
        expect("whose", r.text, 2);
        expect("its field", r.place, wrong[i].field);
        expect("nothing said", r.withdraws + r.student + r.target + r.lock + r.count, 0);
        expect("nothing written", sets[0], 77);
    }
    r = said("1017 order open mail -", sets, 1);
    expect("no room", r.number, PORTAL_SHORT);
    expect("no room, whose and where", r.text + r.place + r.count, 0);
    expect("no room, nothing written", sets[0], 77);
}

static struct portal_register_result entered(const char *line, struct portal_record *records, size_t places, size_t used)
{
    return portal_enter_line((const uint8_t *)SHEET, sizeof SHEET - 1, (const uint8_t *)line, strlen(line), records, places, used);
}

/* Lines taken to the register: a refused one changes nothing. */
static void try_enter_line(void)
{
    struct portal_record records[2] = { { 7, 7, 7, 7, 7, 7, 7, 7 }, { 7, 7, 7, 7, 7, 7, 7, 7 } };
    expect("25 first", entered("", records, 2, 3).number, PORTAL_OVERFULL);
    expect("a misspelt set", entered("1017 order open mailpwd", records, 2, 0).number, PORTAL_NAME_UNKNOWN);
    expect("a misspelt set, the count", entered("1017 order open mailpwd", records, 2, 1).used, 1);
    expect("a misspelt set, no record", records[0].student, 7);
    expect("nobody to withdraw", entered("1017 withdraw", records, 2, 0).number, PORTAL_NO_RECORD);
    struct portal_register_result r = entered("1017 order open mailpw token+ordpw", records, 2, 0);
    expect("entered", r.number, 0);
    expect("entered, the count", r.used, 1);
    expect("entered, full", portal_is_full_record(records[0]), 1);
    expect("entered, the student", records[0].student, 1017);
    expect("entered, the target", records[0].target, ORDER_ITEM);
    expect("entered, the place behind", records[1].student, 7);
    r = entered("1017 order lock ordpw+mailpw", records, 2, 1);
    expect("entered, the other way", r.used, 2);
    expect("entered, lock", records[1].way, 1);
    expect("entered, one is missing", records[1].missing, 1);
    expect("no place", entered("1018 order lock", records, 2, 2).number, PORTAL_ALL_USED);
    expect("withdrawn", entered("1017 withdraw", records, 2, 2).used, 0);
    expect("no sheet", portal_enter_line(NULL, 0, NULL, 0, NULL, 0, 0).number, PORTAL_NO_TEXT);
}

static void expect_refused(const char *what, struct portal_pool_result r, uint64_t number, uint64_t sheet, uint64_t line, const uint8_t *out)
{
    size_t changed = 0;
    for (size_t at = 0; at < PORTAL_POOL_BYTES; at++)
        changed += out[at] != '#';
    expect(what, r.number, number);
    expect("refused, which sheet", r.sheet, sheet);
    expect("refused, its line", r.line, line);
    expect("refused, no length", r.length, 0);
    expect("refused, nothing written", changed, 0);
}

/* Two labs that share a storeroom: one item, whose colour in the second sheet gets out of the way. */
static void try_pool(void)
{
    static const char first[] = "name kind start loss rank\nbadge c 2 1 0\nstore a - - 1\n\nfrom to colour rec\nbadge store 0 0\n";
    static const char second[] = "name kind start loss rank\nstore a - - 1\npin c 1 0 0\n\nfrom to colour rec\npin store 0 1\n";
    static const char both[] =
        "name kind start loss rank\nbadge c 2 1 0\nstore a - - 1\npin c 1 0 0\n\nfrom to colour rec\nbadge store 0 0\npin store 1 1\n";
    static const char other[] = "name kind start loss rank\nstore a - - 2\n\nfrom to colour rec\n";
    static const char five[] = "name kind start loss rank\nx c - - 0\n\nfrom to colour rec\nx x 0 0\nx x 1 0\nx x 2 0\nx x 3 0\nx x 4 0\n";
    const uint8_t *one = (const uint8_t *)first, *two = (const uint8_t *)second, *fives = (const uint8_t *)five;
    const size_t n = sizeof first - 1, m = sizeof second - 1, k = sizeof five - 1, all = sizeof both - 1;
    uint8_t out[PORTAL_POOL_BYTES];
    memset(out, '#', sizeof out);
    struct portal_pool_result r = portal_pool(one, n, two, m, out, sizeof out);
    expect("pooled", r.number + r.sheet + r.line, 0);
    expect("pooled, its length", r.length, all);
    expect("pooled, its bytes", (uint64_t)memcmp(out, both, all), 0);
    expect("pooled, the byte behind", out[all], '#');
    expect("pooled, just enough room", portal_pool(one, n, two, m, out, all).length, all);
    memset(out, '#', sizeof out);
    r = portal_pool(one, n, two, m, out, all - 1);
    expect_refused("pooled, no room", r, PORTAL_POOL_SHORT, 0, 0, out);
    r = portal_pool(one, n, (const uint8_t *)other, sizeof other - 1, out, sizeof out);
    expect_refused("pooled, another rank", r, PORTAL_DISAGREE, 0, 0, out);
    r = portal_pool(fives, k, fives, k, out, sizeof out);
    expect_refused("pooled, ten colours", r, PORTAL_POOL_BOUND, 0, 0, out);
    r = portal_pool(one, n, two, m - 1, out, sizeof out);
    expect_refused("pooled, the second refused", r, PORTAL_NO_TEXT, 2, 0, out);
    r = portal_pool(one, n - 1, two, m - 1, out, sizeof out);
    expect_refused("pooled, both refused", r, PORTAL_NO_TEXT, 1, 0, out);
    r = portal_pool(NULL, 0, two, m, NULL, 0);
    expect("pooled, nothing at all", r.number, PORTAL_NO_TEXT);
}

static void try_setup_score(void)
{
    expect("setup's score", portal_setup_score(setup, WORDS, ORDER_ITEM).score, 1);
    expect("setup's score, no item", portal_setup_score(setup, WORDS, 64).number, PORTAL_NO_ITEM);
    expect("setup's score, no value", portal_setup_score(setup, WORDS, 64).score, 0);
}

static void try_setup_risk(void)
{
    expect("setup's risk", portal_setup_risk(setup, WORDS, ORDER_ITEM).risk, 3);
    expect("setup's risk, no setup", portal_setup_risk(malformed, WORDS, 64).number, PORTAL_NO_SETUP);
}

static void try_mark_openings(void)
{
    const uint64_t handed[4] = { MAILPW, MAILPW, MAILPW + TOKEN, TOKEN };
    struct portal_marks_result m = portal_mark_openings(setup, WORDS, ORDER_ITEM, handed, 4);
    expect("marks", m.number, 0);
    expect("one of each", m.right == 1 && m.repeated == 1 && m.shut == 1 && m.loose == 1 && m.missing == 1, 1);
    expect("not full", (uint64_t)portal_is_full(m), 0);
    m = portal_mark_openings(setup, WORDS, ORDER_ITEM, NULL, 0);
    expect("nothing handed in", m.right + m.repeated + m.shut + m.loose, 0);
    expect("all missing", m.missing, 2);
}

static void try_mark_lockouts(void)
{
    const uint64_t handed[2] = { MAILPW + TOKEN, ORDPW + MAILPW };
    expect("full", (uint64_t)portal_is_full(portal_mark_lockouts(setup, WORDS, ORDER_ITEM, handed, 2)), 1);
    expect("marks, no item", portal_mark_lockouts(setup, WORDS, 5, handed, 2).number, PORTAL_NO_ITEM);
    expect("no full marks", (uint64_t)portal_is_full(portal_mark_lockouts(setup, WORDS, 5, handed, 2)), 0);
}

/* An afternoon on SHEET: places for three records. */
static void try_hand_in(void)
{
    const uint64_t openings[2] = { ORDPW + TOKEN, MAILPW }, one[1] = { MAILPW }, lockouts[2] = { MAILPW + TOKEN, ORDPW + MAILPW };
    struct portal_record r[3], kept[3];
    memset(r, 0x5a, sizeof r);
    const struct portal_record before = r[0];
    expect("eight numbers", sizeof before, 64);
    struct portal_register_result a = portal_hand_in(setup, WORDS, r, 3, 0, 7, ORDER_ITEM, false, openings, 2);
    expect("handed in", a.number, 0);
    expect("one record", a.used, 1);
    expect("whose", r[0].student, 7);
    expect("at which target", r[0].target, ORDER_ITEM);
    expect("open", r[0].way, 0);
    expect("full marks", r[0].right == 2 && portal_is_full_record(r[0]), 1);
    expect("the record behind", (uint64_t)memcmp(&r[1], &before, sizeof before), 0);
    a = portal_hand_in(setup, WORDS, r, 3, a.used, 8, ORDER_ITEM, false, one, 1);
    expect("another student", a.used, 2);
    a = portal_hand_in(setup, WORDS, r, 3, a.used, 7, ORDER_ITEM, true, lockouts, 2);
    expect("the other way", a.used, 3);
    expect("lock", r[2].way, 1);
    expect("marked as lockouts", r[2].right == 2 && r[2].missing == 0, 1);
    a = portal_hand_in(setup, WORDS, r, 3, a.used, 7, ORDER_ITEM, false, one, 1);
    expect("replaced, though all are used", a.number, 0);
    expect("no record more", a.used, 3);
    expect("the latest, not the better", r[0].right, 1);
    expect("one is missing", r[0].missing, 1);
    memcpy(kept, r, sizeof r);
    a = portal_hand_in(setup, WORDS, r, 3, 3, 9, ORDER_ITEM, false, one, 1);
    expect("all are used", a.number, PORTAL_ALL_USED);
    expect("all are used, as many", a.used, 3);
    a = portal_hand_in(malformed, WORDS, r, 3, 4, 9, 5, false, NULL, 0);
    expect("more used than there are", a.number, PORTAL_OVERFULL);
    expect("more used, as many", a.used, 4);
    expect("no setup", portal_hand_in(malformed, WORDS, r, 3, 3, 9, 5, false, NULL, 0).number, PORTAL_NO_SETUP);
    expect("no target", portal_hand_in(setup, WORDS, r, 3, 3, 9, 5, false, NULL, 0).number, PORTAL_NO_ITEM);
    expect("no place at all", portal_hand_in(setup, WORDS, NULL, 0, 0, 9, ORDER_ITEM, false, one, 1).number, PORTAL_ALL_USED);
    expect("all records as they were", (uint64_t)memcmp(r, kept, sizeof r), 0);
}

static void try_withdraw(void)
{
    struct portal_record r[4];
    memset(r, 0, sizeof r);
    for (uint64_t i = 0; i < 4; i++) {
        r[i].student = i == 1 ? 8 : 7;
        r[i].target = i;
    }
    expect("no record", portal_withdraw(r, 4, 3, 9).number, PORTAL_NO_RECORD);
    expect("no record, as many", portal_withdraw(r, 4, 3, 9).used, 3);
    expect("too many used", portal_withdraw(r, 4, 5, 7).number, PORTAL_OVERFULL);
    expect("nobody to withdraw", portal_withdraw(NULL, 0, 0, 7).number, PORTAL_NO_RECORD);
    struct portal_register_result a = portal_withdraw(r, 4, 3, 7);
    expect("withdrawn", a.number, 0);
    expect("one is left", a.used, 1);
    expect("it moved up", r[0].target, 1);
    expect("a freed place keeps its record", r[1].target == 1 && r[2].target == 2, 1);
    expect("behind the used ones", r[3].target, 3);
}

/* SHEET's setup, with the token's edge marked alone of the order account's colour 0, and colour 1 needing `second`, unmarked. */
static void mix_colour(uint64_t words[WORDS], uint64_t second)
{
    memcpy(words, setup, WORDS * sizeof words[0]);
    words[PORTAL_RECOVERY(ORDER_ITEM, 0)] = TOKEN;
    words[PORTAL_ROW(ORDER_ITEM, 1)] = second;
    words[PORTAL_RECOVERY(ORDER_ITEM, 1)] = 0;
}

static void try_backdoor(void)
{
    uint64_t mixed[WORDS];
    mix_colour(mixed, 0);
    expect("backdoor of a mixed colour", portal_backdoor(mixed, WORDS, ORDER_ITEM).yes, 1);
    expect("backdoor", portal_backdoor(setup, WORDS, ORDER_ITEM).yes, 1);
    expect("no backdoor", portal_backdoor(setup, WORDS, MAIL_ITEM).yes, 0);
    expect("backdoor, no item", portal_backdoor(setup, WORDS, 5).number, PORTAL_NO_ITEM);
}

static void try_idle(void)
{
    uint64_t mixed[WORDS];
    mix_colour(mixed, MAIL);
    expect("a mixed colour is not idle", portal_idle(mixed, WORDS, ORDER_ITEM).yes, 0);
    expect("idle", portal_idle(setup, WORDS, MAIL_ITEM).yes, 1);
    expect("not idle", portal_idle(setup, WORDS, ORDER_ITEM).yes, 0);
}

static void try_out_of_rank(void)
{
    expect("out of rank", portal_out_of_rank(setup, WORDS, ORDER_ITEM, MAIL_ITEM).yes, 1);
    expect("in rank", portal_out_of_rank(setup, WORDS, MAIL_ITEM, ORDER_ITEM).yes, 0);
    expect("out of rank, no item", portal_out_of_rank(setup, WORDS, ORDER_ITEM, 5).number, PORTAL_NO_ITEM);
}

static const struct call {
    const char *name;
    size_t stack;
    void (*run)(void);
} CALLS[] = {
    { "portal_version", PORTAL_STACK_SMALL, try_version },
    { "portal_score", PORTAL_STACK, try_score },
    { "portal_risk", PORTAL_STACK, try_risk },
    { "portal_read", PORTAL_STACK_SMALL, try_read },
    { "portal_name", PORTAL_STACK_SMALL, try_name },
    { "portal_check", PORTAL_STACK_SMALL, try_check },
    { "portal_closure", PORTAL_STACK_SMALL, try_closure },
    { "portal_lost", PORTAL_STACK_SMALL, try_lost },
    { "portal_way_in", PORTAL_STACK_SMALL, try_way_in },
    { "portal_opens", PORTAL_STACK_SMALL, try_opens },
    { "portal_forecast", PORTAL_STACK_SMALL, try_forecast },
    { "portal_kinds", PORTAL_STACK_SMALL, try_kinds },
    { "portal_lists", PORTAL_STACK, try_lists },
    { "portal_cut_sets", PORTAL_STACK, try_cut_sets },
    { "portal_next_opening", PORTAL_STACK, try_next_opening },
    { "portal_bag_at_most", PORTAL_STACK_SMALL, try_bag_at_most },
    { "portal_bag_score", PORTAL_STACK, try_bag_score },
    { "portal_take_in", PORTAL_STACK_SMALL, try_take_in },
    { "portal_take_out", PORTAL_STACK_SMALL, try_take_out },
    { "portal_add_edge", PORTAL_STACK_SMALL, try_add_edge },
    { "portal_add_edge, a full drawing", PORTAL_STACK_SMALL, try_full_drawing },
    { "portal_remove_edge", PORTAL_STACK_SMALL, try_remove_edge },
    { "a setup that lives, to every call", PORTAL_STACK_MARKS, try_held },
    { "portal_pool", PORTAL_STACK_SMALL, try_pool },
    { "portal_write_sheet", PORTAL_STACK_SMALL, try_write_sheet },
    { "portal_read_set", PORTAL_STACK_SMALL, try_read_set },
    { "portal_write_set", PORTAL_STACK_SMALL, try_write_set },
    { "portal_read_line", PORTAL_STACK_SMALL, try_read_line },
    { "portal_setup_score", PORTAL_STACK, try_setup_score },
    { "portal_setup_risk", PORTAL_STACK, try_setup_risk },
    { "portal_mark_openings", PORTAL_STACK_MARKS, try_mark_openings },
    { "portal_mark_lockouts", PORTAL_STACK_MARKS, try_mark_lockouts },
    { "portal_hand_in", PORTAL_STACK_MARKS, try_hand_in },
    { "portal_withdraw", PORTAL_STACK_SMALL, try_withdraw },
    { "portal_enter_line", PORTAL_STACK_MARKS, try_enter_line },
    { "portal_backdoor", PORTAL_STACK, try_backdoor },
    { "portal_idle", PORTAL_STACK, try_idle },
    { "portal_out_of_rank", PORTAL_STACK, try_out_of_rank },
};

enum { COUNT = sizeof CALLS / sizeof CALLS[0], THREADS = 8 };

/* ---- threads */

static void *run_one(void *call)
{
    ((const struct call *)call)->run();
    return NULL;
}

static void *run_all(void *unused)
{
    (void)unused;
    for (int round = 0; round < 50; round++)
        for (int i = 0; i < COUNT; i++)
            CALLS[i].run();
    return NULL;
}

static pthread_t begin(size_t stack, void *(*run)(void *), void *with)
{
    pthread_t id;
    pthread_attr_t attr;
    if (pthread_attr_init(&attr) != 0 || pthread_attr_setstacksize(&attr, stack) != 0 || pthread_create(&id, &attr, run, with) != 0) {
        printf("no thread with a stack of %zu bytes\n", stack);
        exit(1);
    }
    pthread_attr_destroy(&attr);
    return id;
}

/* Does the call return in a thread with so large a stack? In a process of its own, which a small stack ends. */
static int runs_with(const struct call *call, size_t stack)
{
    int status = 0;
    pid_t child = fork();
    if (child == 0) {
        pthread_join(begin(stack, run_one, (void *)call), NULL);
        _exit(0);
    }
    return waitpid(child, &status, 0) == child && status == 0;
}

static void print_stacks(void)
{
    const size_t page = 4096;
    for (int i = 0; i < COUNT; i++) {
        size_t low = 3, high = 256;     /* in pages: no thread has 3, and every call runs with 256 */
        while (low + 1 < high) {
            size_t middle = (low + high) / 2;
            if (runs_with(&CALLS[i], middle * page))
                high = middle;
            else
                low = middle;
        }
        printf("%s %zu\n", CALLS[i].name, high * page / 1024);
    }
}

int main(int argc, char **argv)
{
    pthread_t id[THREADS];
    expect("document 01's sheet", portal_read(bytes(SHEET), strlen(SHEET), setup, WORDS).number, 0);
    expect("a sheet of one item", portal_read(bytes(ALONE), strlen(ALONE), alone, WORDS).number, 0);
    expect("a sheet of two that open each other", portal_read(bytes(RING), strlen(RING), ring, WORDS).number, 0);
    expect("a sheet of 14 starting items", portal_read(bytes(LARGEST), strlen(LARGEST), fourteen, WORDS).number, 0);
    memcpy(malformed, setup, sizeof setup);
    malformed[PORTAL_RANK(0)] = 10;
    memcpy(highest, setup, sizeof setup);
    highest[PORTAL_START(0)] = PORTAL_MAX_VALUE;
    highest[PORTAL_LOSS(1)] = PORTAL_MAX_VALUE;
    memcpy(beyond, setup, sizeof setup);
    beyond[PORTAL_START(0)] = PORTAL_MAX_VALUE + 1;
    memcpy(loss_beyond, setup, sizeof setup);
    loss_beyond[PORTAL_LOSS(0)] = PORTAL_MAX_VALUE + 1;
    if (argc > 1 && strcmp(argv[1], "stack") == 0) {
        print_stacks();
        return faults;
    }
    for (int i = 0; i < COUNT; i++)
        pthread_join(begin(CALLS[i].stack, run_one, (void *)&CALLS[i]), NULL);
    for (int i = 0; i < THREADS; i++)
        id[i] = begin(PORTAL_STACK_MARKS, run_all, NULL);
    for (int i = 0; i < THREADS; i++)
        pthread_join(id[i], NULL);
    for (uint64_t number = 0; number <= PORTAL_NO_RECORD; number++)
        expect("a sentence", strcmp(portal_refusal_text(number), portal_refusal_text(UINT64_MAX)) != 0, 1);
    if (faults)
        return 1;
    printf("c client: %d rounds of calls, all well\n", COUNT);
    return 0;
}
