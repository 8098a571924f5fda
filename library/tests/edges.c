/* edges: calls with little in them. Null pointers of length 0 are no part of the interface; they are tried since programs in C pass them. */
#include "jobs.h"

#include <string.h>

static const btx_options options = BTX_OPTIONS;

static btx_file file(const char *name, const char *bytes) {
    return (btx_file){{(const unsigned char *)name, strlen(name)}, {(const unsigned char *)(bytes ? bytes : ""), bytes ? strlen(bytes) : 0}, bytes != NULL};
}

/* Runs the job `j` over files, in rooms of 4,096. */
static outcome run(const btx_file *files, size_t count) {
    job its = {.name = "j", .count = count};
    memcpy(its.files, files, count * sizeof *files);
    return run_in(&its, &options, 4096, 4096);
}

static void no_file(void) {
    unsigned char list[16], log[4096], names[16];
    size_t len = 9;
    btx_report report;
    must(btx_needs((const unsigned char *)"j", 1, NULL, 0, names, sizeof names, &len) == BTX_DONE, "btx_needs fails without a file");
    must(len == 6 && !memcmp(names, "j.aux\n", 6), "the first name isn't the top file's");
    must(btx_needs((const unsigned char *)"j.aux", 5, NULL, 0, names, sizeof names, &len) == BTX_DONE && len == 6, "a job with its ending is another");
    must(btx_needs(NULL, 0, NULL, 0, NULL, 0, &len) == BTX_DONE && len == 5, "a job without a name has another top file");
    must(btx_run((const unsigned char *)"j", 1, NULL, 0, &options, list, sizeof list, log, sizeof log, &report) == BTX_ASKS, "a run without a file goes on");
    must(report.list_len == 0 && report.log_len == 0, "a run without a file writes");
}

static void no_top_file(void) {
    btx_file files[] = {file("j.aux", NULL)};
    unsigned char names[16];
    size_t len = 9;
    must(btx_needs((const unsigned char *)"j", 1, files, 1, names, sizeof names, &len) == BTX_ENDS && len == 0, "more is needed than a top file that isn't there");
    outcome one = run(files, 1);
    must(one.answer == BTX_DONE && one.report.status == 3 && one.report.end == BTX_NO_TOP_FILE && one.report.list_len == 0, "there is a top file");
    free_outcome(&one);
}

/* Of two files with one name the first counts. */
static void first_counts(void) {
    btx_file files[] = {file("j.aux", "\\citation{k}\n\\bibdata{d}\n\\bibstyle{s}\n"), file("d.bib", ""), file("s.bst", "ENTRY{}{}{} READ"), file("s.bst", NULL), file("j.aux", NULL)};
    outcome one = run(files, 3), other = run(files, 5);
    must(one.answer == BTX_DONE && is_same(&one, &other), "a later file counts");
    free_outcome(&one);
    free_outcome(&other);
}

/* The bytes of a file that isn't there aren't looked at. */
static void absent_bytes(void) {
    btx_file files[] = {file("j.aux", "\\citation{k}\n\\bibdata{d}\n\\bibstyle{s}\n"), file("d.bib", ""), file("s.bst", NULL)};
    outcome one = run(files, 3);
    files[2].bytes = files[0].bytes;
    outcome other = run(files, 3);
    must(one.answer == BTX_DONE && one.report.status == 2 && is_same(&one, &other), "a file that isn't there has bytes");
    free_outcome(&one);
    free_outcome(&other);
}

static void no_rooms(void) {
    btx_file files[] = {file("j.aux", "\\citation{k}\n\\bibdata{d}\n\\bibstyle{s}\n"), file("d.bib", ""), file("s.bst", "")};
    btx_report report;
    files[1].bytes = files[2].bytes = (btx_text){NULL, 0};
    must(btx_run((const unsigned char *)"j", 1, files, 3, &options, NULL, 0, NULL, 0, &report) == BTX_FULL, "there is room in nothing");
    must(report.end == BTX_LOG_FULL && report.list_len == 0 && report.log_len == 0, "a run writes into nothing");
}

/* What btx_where writes of three files in a room of this length, which must be as much of `text` as there is room for. */
static void check_notes(const btx_file *files, uint32_t most, size_t room, uint32_t wanted, const char *text) {
    unsigned char notes[4096];
    size_t len = 9, whole = strlen(text);
    memset(notes, 0xA5, sizeof notes);
    uint32_t answer = btx_where((const unsigned char *)"j", 1, files, 3, &options, most, notes, room, &len);
    must(answer == wanted && len == whole, "btx_where answers %u with %zu bytes, not %u with %zu", answer, len, wanted, whole);
    must(!memcmp(notes, text, whole < room ? whole : room) && is_untouched(notes + room, sizeof notes - room), "the notes are others");
}

static void places(void) {
    btx_file files[] = {file("j.aux", "\\citation{k}\n\\bibdata{d}\n\\bibstyle{s}\n"), file("d.bib", "@misc{k, title = 1}"),
                        file("s.bst", "ENTRY{title}{}{}\nFUNCTION {f} {title\n#1 + pop$}\nREAD\nITERATE {f}")};
    const char *text = "event step 4 0 1\nitem ITERATE 5 f\nsince in 3 0 1 f\nsince in 2 0 0 f\nentry k\nnext +\nat in 3 0 2 f\ndepth 2\nliteral 1 1\nliteral 3 \"1\"\n";
    check_notes(files, 5, 4096, BTX_DONE, text);
    check_notes(files, 5, strlen(text), BTX_DONE, text);
    check_notes(files, 5, strlen(text) - 1, BTX_FULL, text);
    check_notes(files, 5, 0, BTX_FULL, text);
    check_notes(files, 0, 0, BTX_DONE, "");
    size_t len = 9;
    must(btx_where((const unsigned char *)"j", 1, files, 2, &options, 5, NULL, 0, &len) == BTX_ASKS && len == 0, "btx_where goes on without the style");
    btx_options none = BTX_OPTIONS;
    none.line = 0;
    len = 9;
    must(btx_where((const unsigned char *)"j", 1, files, 3, &none, 5, NULL, 0, &len) == BTX_REFUSED && len == 9, "btx_where takes a line of no length");
    files[2] = file("s.bst", "ENTRY{title}{}{}\nFUNCTION {f} {title write$}\nREAD\nITERATE {f}");
    check_notes(files, 5, 4096, BTX_DONE, "");
}

static void check_style(const char *style, uint64_t steps, size_t room, uint32_t answer, uint32_t verdict, const char *types, const char *notes) {
    unsigned char types_room[256], notes_room[256];
    btx_verdict one = {9, 9, 9, 9, 9};
    must(btx_check((const unsigned char *)"s.bst", 5, (const unsigned char *)style, strlen(style), steps, types_room, room, notes_room, room, &one) == answer, "btx_check answers something else");
    must(one.verdict == verdict && one.types_len == strlen(types) && one.notes_len == strlen(notes), "the verdict is %u, with %zu and %zu bytes", one.verdict, one.types_len, one.notes_len);
    if (answer != BTX_DONE) return;
    must(!memcmp(types_room, types, one.types_len) && !memcmp(notes_room, notes, one.notes_len), "types or notes are others");
    must(verdict != BTX_CLEAN || (one.literals == 2 && one.bodies == 1), "the bounds are %u and %u", (unsigned)one.literals, (unsigned)one.bodies);
}

static void styles(void) {
    const char *clean = "ENTRY{title}{}{} FUNCTION {misc} {title pop$ \"x\" cite$ * write$} READ ITERATE {call.type$}";
    const char *faulty = "ENTRY{title}{}{}\nFUNCTION {misc} {title\nwrite$} READ ITERATE {call.type$}";
    const char *notes = "warning kind first\nnext write$\ndepth 1\noperand 0 text mewf\nwants text\nname field title\nmissing title\nitem ITERATE 3 call.type$\n"
                        "at in 3 0 1 misc\ntype misc\n";
    check_style(clean, 1000, 256, BTX_DONE, BTX_CLEAN, "misc\n", "");
    check_style(clean, 1000, 5, BTX_DONE, BTX_CLEAN, "misc\n", "");
    check_style(clean, 1000, 4, BTX_FULL, BTX_CLEAN, "misc\n", "");
    check_style(clean, 1, 256, BTX_DONE, BTX_INCOMPLETE, "", "");
    check_style(faulty, 1000, 256, BTX_DONE, BTX_WARNINGS, "", notes);
    check_style(faulty, 1000, 10, BTX_FULL, BTX_WARNINGS, "", notes);
}

static void check_ends(const char *style, uint32_t kept, size_t room, uint32_t answer, bool ends, uint64_t once, uint64_t each, const char *types, const char *notes) {
    unsigned char types_room[256], notes_room[256];
    btx_bound one = {9, 9, 9, 9, !ends};
    must(btx_check_ends((const unsigned char *)"s.bst", 5, (const unsigned char *)style, strlen(style), kept, types_room, room, notes_room, room, &one) == answer, "btx_check_ends answers something else");
    must(one.ends == ends && one.once == once && one.each == each, "the bound is %u and %u", (unsigned)one.once, (unsigned)one.each);
    must(one.types_len == strlen(types) && one.notes_len == strlen(notes), "there are %zu and %zu bytes", one.types_len, one.notes_len);
    if (answer != BTX_DONE) return;
    must(!memcmp(types_room, types, one.types_len) && !memcmp(notes_room, notes, one.notes_len), "types or notes are others");
}

static void bounds(void) {
    const char *counted = "ENTRY{title}{}{} INTEGERS{n} FUNCTION {misc} {title num.names$ 'n := {n #0 >} {n #1 - 'n :=} while$} READ ITERATE {call.type$}";
    const char *ending = "ENTRY{title}{}{} STRINGS{s} FUNCTION{book}{cite$ write$}\nFUNCTION {misc} {title 's := cite$ write$} FUNCTION {f} {skip$}READ EXECUTE {f} ITERATE {call.type$}";
    const char *longer = "ENTRY{title}{}{} STRINGS{s} FUNCTION{not}{{#0}{#1}if$} FUNCTION {misc} {title 's := {s empty$ not} {s #2 global.max$ substring$ 's :=} while$} READ ITERATE {call.type$}";
    const char *again = "ENTRY{title}{}{} FUNCTION {misc} {call.type$} READ ITERATE {call.type$}";
    check_ends(counted, 20000, 256, BTX_DONE, false, 0, 0, "", "next while$\nunbounded in 1 2 6 misc\n");
    check_ends(ending, 20000, 256, BTX_DONE, true, 2, 7, "book\nmisc\n", "");
    check_ends(ending, 0, 10, BTX_DONE, true, 2, 7, "book\nmisc\n", "");
    check_ends(ending, 0, 9, BTX_FULL, true, 2, 7, "book\nmisc\n", "");
    check_ends(longer, 0, 256, BTX_DONE, true, 0, 24, "misc\n", "");
    check_ends(longer, 100, 256, BTX_DONE, true, 0, 1624, "misc\n", "");
    check_ends(again, 20000, 256, BTX_DONE, false, 0, 0, "", "again misc\n");
    check_ends(again, 20000, 4, BTX_FULL, false, 0, 0, "", "again misc\n");
}

int main(void) {
    styles();
    bounds();
    no_file();
    places();
    no_top_file();
    first_counts();
    absent_bytes();
    no_rooms();
    return 0;
}
