/* A worked example of include/portal.h. Reads a sheet, prints the opening sets of an account by name with the way in of each,
 * says what to harden so that no way in is left, marks a handed-in list, takes lines of a class to the register, redraws the
 * setup, and saves the drawing:
 *
 *     portal SHEET ACCOUNT [SET ...]     a set is names joined by '+', and '-' is the empty set
 *
 * Compiles as C11 and as C++17. */
#include <inttypes.h>
#include <stdio.h>
#include <stdlib.h>
#include <string.h>

#include <portal.h>

/* All that the calls are given: a sheet's bytes, and the setup that portal_read writes. One byte more than a sheet may have
 * is read, so that a longer file is refused and not cut. */
static uint8_t sheet[PORTAL_MAX_SHEET + 1];
static size_t length;
static uint64_t setup[PORTAL_SETUP_WORDS];
static uint64_t sets[PORTAL_MAX_SETS];

static void stop(const char *what, uint64_t number)
{
    fprintf(stderr, "portal: %s: refused with %" PRIu64 ", %s\n", what, number, portal_refusal_text(number));
    exit(1);
}

/* A name is a part of the sheet: nothing is copied. */
static void print_name(uint64_t item)
{
    struct portal_name_result name = portal_name(sheet, length, item);
    printf("%.*s", (int)name.length, (const char *)sheet + name.start);
}

/* A set as the report prints it: names joined by '+', or '-' for the empty set. */
static void print_set(uint64_t set)
{
    uint8_t names[PORTAL_SET_BYTES];
    struct portal_write_set_result written = portal_write_set(sheet, length, set, names, sizeof names);
    if (written.number != 0)
        stop("the names of a set", written.number);
    printf("%.*s", (int)written.length, (const char *)names);
}

/* The same, read. A name that is not in the sheet ends the program. */
static uint64_t set_named(const char *text)
{
    struct portal_read_set_result named = portal_read_set(sheet, length, (const uint8_t *)text, strlen(text));
    if (named.number != 0)
        stop(text, named.number);
    return named.set;
}

/* An item is a set of one; the item count where the text names another set. */
static uint64_t item_named(const char *text)
{
    uint64_t set = set_named(text), item = 0;
    while (item < setup[PORTAL_COUNT] && set != UINT64_C(1) << item)
        item++;
    return item;
}

static void print_way(uint64_t account, uint64_t set)
{
    uint8_t items[PORTAL_MAX_ITEMS], colours[PORTAL_MAX_ITEMS];
    struct portal_way_in_result way = portal_way_in(setup, PORTAL_SETUP_WORDS, account, set, items, sizeof items, colours, sizeof colours);
    if (way.number != 0)
        stop("way in", way.number);
    for (uint64_t step = 0; step < way.steps; step++) {
        printf(step == 0 ? ": " : ", ");
        print_name(items[step]);
        printf(" by colour %u", (unsigned)colours[step]);
    }
    printf("\n");
}

static void read_sheet(const char *path)
{
    FILE *file = fopen(path, "rb");
    if (file == NULL) {
        perror(path);
        exit(1);
    }
    length = fread(sheet, 1, sizeof sheet, file);
    fclose(file);
    struct portal_read_result reading = portal_read(sheet, length, setup, PORTAL_SETUP_WORDS);
    if (reading.number != 0) {
        fprintf(stderr, "portal: %s, line %" PRIu64 "\n", path, reading.line);
        stop(path, reading.number);
    }
}

/* What to harden: all items of one of the smallest cut sets. They are not the lockout sets, though document.sheet has the same. */
static void print_cuts(uint64_t account)
{
    struct portal_cut_sets_result cuts = portal_cut_sets(setup, PORTAL_SETUP_WORDS, account, sets, PORTAL_MAX_SETS);
    if (cuts.number != 0)
        stop("cut sets", cuts.number);
    if (sets[0] == 0) {
        printf("nothing opens it, so there is nothing to harden\n");
        return;
    }
    for (uint64_t i = 0; i < cuts.count; i++) {
        printf(i == 0 ? "to leave no way in, harden " : ", or ");
        print_set(sets[i]);
    }
    printf("\n");
}

static void print_marks(uint64_t account, const uint64_t *handed, size_t count)
{
    struct portal_marks_result m = portal_mark_openings(setup, PORTAL_SETUP_WORDS, account, handed, count);
    if (m.number != 0)
        stop("marks", m.number);
    printf("right %" PRIu64 ", repeated %" PRIu64 ", shut %" PRIu64 ", loose %" PRIu64 ", missing %" PRIu64 ": %s\n", m.right,
           m.repeated, m.shut, m.loose, m.missing, portal_is_full(m) ? "full" : "not full");
}

/* The class register: the records, and how many are used. */
static struct portal_record records[4];
static size_t used;

/* A line as students hand it in. One that is refused loses that line and nothing else; portal_read_line tells where it is wrong. */
static void enter(const char *line)
{
    const uint8_t *text = (const uint8_t *)line;
    struct portal_register_result entered = portal_enter_line(sheet, length, text, strlen(line), records, 4, used);
    used = entered.used;
    if (entered.number != 0) {
        struct portal_read_line_result read = portal_read_line(sheet, length, text, strlen(line), sets, PORTAL_MAX_SETS);
        printf("%.20s.., field %" PRIu64 ": %s\n", line, read.place, portal_refusal_text(entered.number));
    }
}

/* A line that hands in the sets of a list, each by its names; the first one misspelt where `misspelt` is true. */
static void hand_in(unsigned student, const char *account, const char *way, const uint64_t *list, uint64_t count, bool misspelt)
{
    static char line[40 + PORTAL_MAX_LIST * (PORTAL_SET_BYTES + 2)];
    int at = sprintf(line, "%u %s %s", student, account, way);
    for (uint64_t i = 0; i < count; i++) {
        line[at++] = ' ';
        if (misspelt && i == 0)
            at += sprintf(line + at, "no_such_item+");
        at += (int)portal_write_set(sheet, length, list[i], (uint8_t *)line + at, PORTAL_SET_BYTES).length;
    }
    line[at] = '\0';
    enter(line);
}

/* An afternoon: one student hands both lists in, another misspells a set, hands in half a list in its place, and a third leaves. */
static void register_class(uint64_t account, const char *name)
{
    static uint64_t both[PORTAL_MAX_SETS];
    struct portal_lists_result lists = portal_lists(setup, PORTAL_SETUP_WORDS, account, both, PORTAL_MAX_SETS);
    hand_in(1017, name, "open", both, lists.openings, false);
    hand_in(1017, name, "lock", both + lists.openings, lists.lockouts, false);
    hand_in(1042, name, "open", both, lists.openings, true);
    hand_in(1042, name, "open", both, lists.openings / 2, false);
    hand_in(1058, name, "lock", NULL, 0, false);
    enter("1058 withdraw");
    for (size_t i = 0; i < used; i++) {
        printf("%" PRIu64 " ", records[i].student);
        print_name(records[i].target);
        printf(" %s: right %" PRIu64 ", missing %" PRIu64 ", %s\n", records[i].way == 1 ? "lock" : "open", records[i].right, records[i].missing,
               portal_is_full_record(records[i]) ? "full" : "not full");
    }
}

static void print_held(const char *what)
{
    printf("%s: held ", what);
    print_set(setup[PORTAL_HELD]);
    printf(", open ");
    print_set(setup[PORTAL_OPENED]);
    printf("\n");
}

/* Saves the drawing as it now is, under the sheet's names, and reads it again: the same drawing, with nothing held. */
static void save_drawing(void)
{
    static uint8_t saved[PORTAL_SAVE_BYTES];
    static uint64_t again[PORTAL_SETUP_WORDS];
    struct portal_write_sheet_result text = portal_write_sheet(sheet, length, setup, PORTAL_SETUP_WORDS, saved, sizeof saved);
    if (text.number != 0)
        stop("save", text.number);
    struct portal_read_result reading = portal_read(saved, text.length, again, PORTAL_SETUP_WORDS);
    if (reading.number != 0)
        stop("read what was saved", reading.number);
    printf("saved in %" PRIu64 " bytes; read again it is %s\n", text.length,
           memcmp(setup, again, PORTAL_HELD * sizeof *setup) == 0 ? "the same drawing" : "another drawing");
}

/* An edge more, from an item that is not open, in a colour by which the account is: that colour is then harder, and the account may shut.
 * Where there is no such item or colour, nothing is drawn; a refused call leaves the setup as it was. */
static void draw_edge(uint64_t account)
{
    uint64_t open = setup[PORTAL_OPENED], from = 0, colour = 0;
    while (from < setup[PORTAL_COUNT] && open >> from & 1)
        from++;
    while (colour < PORTAL_COLOURS && (setup[PORTAL_ROW(account, colour)] == 0 || setup[PORTAL_ROW(account, colour)] & ~open))
        colour++;
    if (from == setup[PORTAL_COUNT] || colour == PORTAL_COLOURS)
        return;
    uint64_t number = portal_add_edge(setup, PORTAL_SETUP_WORDS, from, account, colour, false);
    if (number != 0) {
        printf("no edge is added: %s\n", portal_refusal_text(number));
        return;
    }
    printf("an edge from ");
    print_name(from);
    printf(" in colour %u", (unsigned)colour);
    print_held(" added");
    save_drawing();
    number = portal_remove_edge(setup, PORTAL_SETUP_WORDS, from, account, colour);
    if (number != 0)
        stop("remove an edge", number);
    print_held("removed again");
}

/* A lab redraws while it talks: a set is taken in, an edge is added and removed, and the set is taken out. The calls work on the
 * setup's buffer, in which what is open is always what the held items open in the drawing as it is. */
static void redraw(uint64_t account, uint64_t set)
{
    for (uint64_t item = 0; item < setup[PORTAL_COUNT]; item++)
        if (set >> item & 1) {
            uint64_t number = portal_take_in(setup, PORTAL_SETUP_WORDS, item);
            if (number != 0)
                stop("take in", number);
        }
    print_held("taken in");
    draw_edge(account);
    for (uint64_t item = 0; item < setup[PORTAL_COUNT]; item++)
        if (set >> item & 1) {
            uint64_t number = portal_take_out(setup, PORTAL_SETUP_WORDS, item);
            if (number != 0)
                stop("take out", number);
        }
    print_held("taken out");
}

int main(int argc, char **argv)
{
    if (argc < 3) {
        fprintf(stderr, "usage: portal SHEET ACCOUNT [SET ...]\n");
        return 2;
    }
    if (portal_version() != PORTAL_VERSION) {
        fprintf(stderr, "portal: the library has another version than the header\n");
        return 1;
    }
    read_sheet(argv[1]);
    uint64_t account = item_named(argv[2]);
    struct portal_lists_result lists = portal_lists(setup, PORTAL_SETUP_WORDS, account, sets, PORTAL_MAX_SETS);
    if (lists.number != 0)
        stop(argv[2], lists.number);
    for (uint64_t i = 0; i < lists.openings; i++) {
        print_set(sets[i]);
        print_way(account, sets[i]);
    }
    uint64_t first = lists.openings == 0 ? 0 : sets[0];
    print_cuts(account);

    size_t count = (size_t)argc - 3;
    uint64_t *handed = (uint64_t *)malloc((count + 1) * sizeof *handed);
    if (handed == NULL)
        return 1;
    for (size_t i = 0; i < count; i++)
        handed[i] = set_named(argv[i + 3]);
    print_marks(account, handed, count);
    free(handed);
    register_class(account, argv[2]);
    if (first != 0)
        redraw(account, first);
    return 0;
}
