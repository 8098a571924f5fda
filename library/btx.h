/* BibTeX, proved, as a library for C. Nothing of a call stays after: all that a call hands back lies in the caller's memory. So there is nothing to
   free, and calls in several threads don't touch one another.

   A text is a pointer and a length. A pointer is never null, not even of a text of length 0 (write ""); this holds of every pointer below. Memory in
   which a call writes overlaps nothing else that the call is given. The library calls malloc, realloc and free, memcpy, memmove and memset, and nothing else; it isn't to be
   called from a signal handler, or in the forked child of a process with threads. A call takes less than 64 KiB of stack, and the check
   of a style less than 1 MiB, however deep the style nests its functions. */
#ifndef BTX_H
#define BTX_H

#include <stdbool.h>
#include <stddef.h>
#include <stdint.h>

#ifdef __cplusplus
extern "C" {
#endif

typedef struct {
    const unsigned char *at;
    size_t len;
} btx_text;

/* A file of a job, or that there is no file of this name: then `is_there` is false, and `bytes` any text. The name is as btx_needs wrote it:
   paper.aux, plain.bst, refs.bib. Of two files with one name the first counts. */
typedef struct {
    btx_text name;
    btx_text bytes;
    bool is_there;
} btx_file;

/* What is asked of a run. */
typedef struct {
    uint64_t budget;        /* the greatest number of steps of the style */
    uint32_t min_crossrefs; /* how many references list an entry that isn't cited */
    uint32_t line;          /* 20 to 1,000: the greatest length of a line of the list, if whitespace allows a break */
    uint32_t entry_max;     /* 1 to 1,000,000: how many bytes of a string a variable of an entry keeps */
    uint32_t global_max;    /* 1 to 1,000,000: how many bytes of a string a global variable keeps */
    bool utf8;              /* whether text is read as UTF-8 */
} btx_options;

/* The options that the program has where none is given. TeX Live's program keeps 500 and 200,000 bytes in variables. */
#define BTX_OPTIONS { 1000000000u, 2, 79, 250, 20000, false }

/* What a call answers. */
enum {
    BTX_DONE = 0,    /* it did what it says */
    BTX_REFUSED = 1, /* a number of the options is out of its range, or a style or a database is too long; nothing was written */
    BTX_MEMORY = 2,  /* memory was refused */
    BTX_ASKS = 3,    /* the run asked for a file of which nothing was said */
    BTX_FULL = 4,    /* the list or the log is longer than its room */
    BTX_ENDS = 5     /* btx_needs: the run ends with its .aux files, so it needs no other file; btx_read_job: it ends before it has a library */
};

/* How a run ended (`end` of its report). */
enum {
    BTX_FINISHED = 0,       /* the whole style was executed, or there is none */
    BTX_STOPPED = 1,        /* the budget did not cover the next step */
    BTX_NO_TOP_FILE = 2,    /* there is no top .aux file */
    BTX_LIMIT_LITERALS = 3, /* at a limit: of literals on the stack, */
    BTX_LIMIT_CALLS = 4,    /* of calls that are open at once, */
    BTX_LIMIT_LOOPS = 5,    /* of loops that run at once, */
    BTX_LIMIT_STRING = 6,   /* of a string's bytes, */
    BTX_LIMIT_FILE = 7,     /* of a file's bytes, */
    BTX_LIMIT_FILES = 8,    /* of .aux files that are open at once */
    BTX_NO_MEMORY = 9,      /* it broke off, and btx_run answered BTX_MEMORY, */
    BTX_UNKNOWN_FILE = 10,  /* BTX_ASKS, */
    BTX_LIST_FULL = 11,     /* BTX_FULL, for want of room for the list, */
    BTX_LOG_FULL = 12       /* BTX_FULL, for want of room for the log */
};

/* What a run answered. */
typedef struct {
    uint32_t status;   /* 0 no error messages, 2 some, 3 a limit or no top file, 4 stopped, 5 broken off */
    uint32_t end;      /* how it ended: BTX_FINISHED .. BTX_LOG_FULL */
    uint64_t steps;    /* the steps taken */
    uint64_t deepest;  /* the greatest number of calls that were open at once */
    uint64_t warnings; /* the warnings in the log */
    uint64_t errors;   /* the error messages in the log */
    size_t list_len;   /* how many bytes of the list were written */
    size_t log_len;    /* how many bytes of the log were written */
} btx_report;

/* Writes the names of the files that the job needs and of which nothing was said, each with a byte 10, as many bytes as there is room for in `names`,
   and in `*names_len` how many bytes there are in all. A name ends in .aux, .bst or .bib. Find each file, hand it in or say that it isn't there, and
   call again; when no name comes any more, run: what the job writes doesn't depend on other files, and btx_run doesn't answer BTX_ASKS. The first names
   are the top file's alone. Answers BTX_DONE; or BTX_ENDS, with no name, where the run ends with its .aux files: there is no top file, or they meet a
   limit; or BTX_MEMORY: then nothing was written. */
uint32_t btx_needs(const unsigned char *job, size_t job_len, const btx_file *files, size_t files_len,
                   unsigned char *names, size_t names_room, size_t *names_len);

/* Runs the job over these files, and writes its list, its log and its report. If it asks for a file of which nothing was said, it answers BTX_ASKS
   (btx_needs tells which): so what a run gives is right whatever other files there are. If the list or the log is longer than its room, it fills that
   room and answers BTX_FULL: hand in more room and run again; the same comes out. So the rooms also bound the memory that a run takes for what a style
   writes.
   After BTX_REFUSED nothing was written. After BTX_MEMORY, BTX_ASKS and BTX_FULL the list and the log begin what they would have been; of the report,
   status and end say so, the lengths are those of what was written, and the counts are 0. */
uint32_t btx_run(const unsigned char *job, size_t job_len, const btx_file *files, size_t files_len, const btx_options *options,
                 unsigned char *list, size_t list_room, unsigned char *log, size_t log_room, btx_report *report);

/* An event of a run, which is a line of its log. (Text that a style prints may have a byte 10 of its own: so cut the log by events, not at each byte 10.) */
typedef struct {
    uint64_t at;    /* how many bytes of the log stand before the line */
    uint64_t len;   /* how many bytes the line has, without its line feed */
    uint64_t entry; /* the number of the current entry, from 0, while the style is executed for one; else BTX_NO_ENTRY */
    uint32_t kind;  /* what the line is: BTX_PLAIN .. BTX_ERROR */
    uint32_t met;   /* where it was met: BTX_MET_IN_FILES .. BTX_MET_AT_END */
} btx_event;

/* There is no current entry. */
#define BTX_NO_ENTRY UINT64_MAX

/* What a line of the log is. */
enum {
    BTX_PLAIN = 0,   /* neither a warning nor an error: a file that was found, text that a style prints, how the run ended */
    BTX_WARNING = 1, /* a warning; the report counts these, */
    BTX_ERROR = 2    /* and the errors */
};

/* Where a line of the log was met. */
enum {
    BTX_MET_IN_FILES = 0,     /* in the .aux files, or where the style and the databases are looked for */
    BTX_MET_IN_STYLE = 1,     /* in the text of the style */
    BTX_MET_IN_DATABASES = 2, /* in the databases */
    BTX_MET_IN_EXECUTION = 3, /* while the style is executed */
    BTX_MET_AT_END = 4        /* at the end: how the run ended */
};

/* Runs the job as btx_run does, and writes an event for each line of the log: the first ones, as many as there is room for in `events`, and in `*events_len` how many
   there are in all. It answers BTX_DONE also where that is more than the room. So no caller needs to guess from a line's text whether it is an error: a style may
   print a line that looks like one. After BTX_REFUSED nothing was written; after BTX_MEMORY, BTX_ASKS and BTX_FULL no event, and `*events_len` is 0. */
uint32_t btx_run_events(const unsigned char *job, size_t job_len, const btx_file *files, size_t files_len, const btx_options *options,
                        unsigned char *list, size_t list_room, unsigned char *log, size_t log_room, btx_report *report,
                        btx_event *events, size_t events_room, size_t *events_len);

/* The place that a line of the log is about. */
typedef struct {
    uint64_t file;     /* the number of its file in `files`, from 0; BTX_NO_FILE where no place is known */
    uint64_t start;    /* how many bytes of that file stand before the place, */
    uint64_t end;      /* and before its end; the same as `start` where the place is a point */
    uint64_t line;     /* the line of its first byte, from 1 up; 0 where no place is known */
    uint32_t function; /* while a token of the style is executed: the number of its function, from 0 in the order in which functions end in the style, those in braces too;
                          else BTX_NO_FUNCTION */
    uint32_t token;    /* the number of the token in that function, from 0 */
} btx_place;

/* No file is known. */
#define BTX_NO_FILE UINT64_MAX
/* No token of the style is executed. */
#define BTX_NO_FUNCTION UINT32_MAX

/* Runs the job as btx_run_events does, and writes also the place that each line of the log is about: the first places, as many as there is room for in `places`, of
   which place n is that of event n. Of an error of the style's execution, a warning or a text that it prints, it is the token that is executed, and the
   command where none is: where literals are left when its function has ended, or where it executes a function of the language; of a message of the
   style's text the word that it is about, or the point where it was met; of a message of the databases the point where the reading stood. Other lines have none: those on files, those
   on a reference without an entry, and the last line. After BTX_REFUSED, BTX_MEMORY, BTX_ASKS and BTX_FULL no
   place is written. The style is read once more, if a line is about it. */
uint32_t btx_run_places(const unsigned char *job, size_t job_len, const btx_file *files, size_t files_len, const btx_options *options,
                        unsigned char *list, size_t list_room, unsigned char *log, size_t log_room, btx_report *report,
                        btx_event *events, size_t events_room, btx_place *places, size_t places_room, size_t *events_len);

/* Runs the job once more, and notes where its style stands: at each of the first `most` events that log errors in its execution, and where the run is stopped or
   meets a limit: the function and the line of the style, who called it, and the literals on the stack. The notes are lines, whose form the man page says; there is
   none where no error was logged and the run finished. As many bytes are written as there is room for, and in `*notes_len` how many there are in all; if that is
   more than the room, it answers BTX_FULL. After BTX_REFUSED nothing was written; after BTX_MEMORY and BTX_ASKS no note, and `*notes_len` is 0; a run
   that writes more than 128,000,000 bytes counts as refused memory. A job takes two runs, and for each event one that goes up to it. */
uint32_t btx_where(const unsigned char *job, size_t job_len, const btx_file *files, size_t files_len, const btx_options *options,
                   uint32_t most, unsigned char *notes, size_t notes_room, size_t *notes_len);

/* A string that is known before a database, as a style's macro: its name, and its text. */
typedef struct {
    btx_text name;
    btx_text text;
} btx_string;

/* What a record of a database is. */
enum {
    BTX_COMMENT = 0,  /* an @comment */
    BTX_PREAMBLE = 1, /* a @preamble: its text */
    BTX_STRING = 2,   /* a @string: its name, and its text */
    BTX_ENTRY = 3,    /* the beginning of an entry: its type as the name, its key as the text */
    BTX_FIELD = 4,    /* a field of the entry: its name, and its text */
    BTX_END = 5,      /* the end of a @preamble, a @string or an entry */
    BTX_WRONG = 6     /* what is wrong: as the text the line that a run logs of it, where no key is repeated before */
};

/* A record of a database. Its name and its text lie in `texts`, with no byte after them. */
typedef struct {
    uint32_t kind;   /* BTX_COMMENT .. BTX_WRONG */
    bool is_whole;   /* false if its text has more than 1,000,000 bytes: then it is left out */
    size_t start;    /* the bytes of the database before its first byte: the `@`, the name of a field, the delimiter that ends an item */
    size_t end;      /* the bytes before the byte after its last; where something is wrong, start and end are its place */
    size_t line;     /* the line of its first byte, from 1 up */
    size_t name_at;  /* the bytes of `texts` before its name */
    size_t name_len;
    size_t text_at;  /* the bytes of `texts` before its text */
    size_t text_len;
} btx_record;

/* How many records a database has, and how many bytes their names and texts have. */
typedef struct {
    size_t records;
    size_t texts;
} btx_sizes;

/* Reads the database `text`, whose file's name `file` is for the lines about what is wrong, whatever a document cites: each item in its order, with entries of a
   repeated key. These strings are known before it; the last of a name counts that isn't too long. A text is the value as a run stores it, after strings and `#`. Writes the
   records and their texts, as many as there is room for, and in `*sizes` how many there are in all; if that is more than there is room for, it answers
   BTX_FULL. A database of more than 2,147,483,647 bytes is refused: BTX_REFUSED. After that and after BTX_MEMORY nothing was written. */
uint32_t btx_read(const unsigned char *file, size_t file_len, const unsigned char *text, size_t text_len, const btx_string *strings, size_t strings_len,
                  btx_record *records, size_t records_room, unsigned char *texts, size_t texts_room, btx_sizes *sizes);

/* Reads the library of a job, which is what its style has of the databases: the entries of its list in their order, with what they inherited. The records are those of
   btx_read, of three kinds. BTX_ENTRY: the name is the style's function for the entry's type, in lower case, or has no byte where the style has none before READ;
   the text is the key as the list spells it. BTX_FIELD, for each field that has a value: the name as the style declares it, in lower case; fields
   come in the order of the style's ENTRY. Before them comes `crossref`, if the entry has a parent in the list: its text is that parent's key, as the list spells it.
   BTX_END: the end of the entry. A library keeps no places: `start`, `end` and `line` are 0; btx_read has them, by the key. Which fields are
   inherited isn't said.
   Files and options are those of btx_run; of the options only `min_crossrefs` changes what is written. What a run logs of its files isn't written: btx_run_events has it.
   Answers BTX_FULL as btx_read does; BTX_ASKS if it asks for a file of which nothing was said; BTX_ENDS, with sizes of 0 and no record, where the run ends before it
   has a library: there is no top file or no style, or a limit of files or strings is met before the style is executed. A style without READ has a library all the
   same, of which its run reads nothing. After BTX_REFUSED, BTX_MEMORY and BTX_ASKS nothing was written. */
uint32_t btx_read_job(const unsigned char *job, size_t job_len, const btx_file *files, size_t files_len, const btx_options *options,
                      btx_record *records, size_t records_room, unsigned char *texts, size_t texts_room, btx_sizes *sizes);

/* What is said of a style. */
enum {
    BTX_CLEAN = 0,     /* no run of it logs a fault of the stack or of kinds */
    BTX_WARNINGS = 1,  /* it isn't known to be clean */
    BTX_INCOMPLETE = 2 /* the check took as many steps as it may, or the style nests its functions deeper than it follows them */
};

typedef struct {
    uint32_t verdict;  /* BTX_CLEAN .. BTX_INCOMPLETE */
    uint64_t literals; /* of a clean style: the greatest number of literals on the stack that was met */
    uint64_t bodies;   /* of a clean style: no more bodies of functions are ever open at once */
    size_t types_len;  /* how many bytes the names of types have */
    size_t notes_len;  /* how many bytes the notes have */
} btx_verdict;

/* Checks a style before any run, in at most `steps` steps of the check. `name` is that of its file. If it is clean, no run of it logs an empty stack, an operand of a wrong kind,
   operands that `=` can't compare, an assignment to no variable, a use without an entry or literals left over, or ends at the limit of literals, bodies or loops: for any document and databases in which each entry's type is
   one that the style doesn't know or one that is named in `types`, each with a byte 10, and for up to 1,500,000,000 steps of the style. Mistakes in its text aren't looked at: a text with some, or an empty one,
   may be clean (the man page says what else isn't promised). If it isn't called clean, `notes` say where
   it may go wrong and why, as far as another search of at most as many steps finds it, in lines whose form the man page says. Answers BTX_FULL if one of the two is longer than its room; BTX_REFUSED if the style is longer than a file may be; after
   that and BTX_MEMORY nothing was written. */
uint32_t btx_check(const unsigned char *name, size_t name_len, const unsigned char *style, size_t style_len, uint64_t steps,
                   unsigned char *types, size_t types_room, unsigned char *notes, size_t notes_room, btx_verdict *verdict);

/* What is said of the steps of a style's runs. */
typedef struct {
    uint64_t once;    /* of a style that ends: a run takes at most this many steps, */
    uint64_t each;    /* and this many for each entry of the list */
    size_t types_len; /* how many bytes the names of types have */
    size_t notes_len; /* how many bytes the notes have */
    bool ends;        /* whether each run of it ends within that bound */
} btx_bound;

/* Says of a style, before any run, whether each run of it ends. `name` is that of its file. If `ends` is true, no run of it is stopped whose budget is at least the
   bound, and none takes more steps: for any document and databases in which each entry's type is one that the style doesn't know or one that is named in `types`, each
   with a byte 10, where a global string variable keeps at most `kept` bytes (20,000, unless `global_max` of the options is another number). These types are those of
   btx_check; or fewer, where the functions of the others have a loop of which no bound is known: then `notes` say where. A run may still end at a limit: of the stack, a string or a file. A style of which `ends` is false may end, too: then `notes` say where the first
   token stands of which no bound is known, in lines whose form the man page says. Answers BTX_FULL if one of the two is longer than its room; BTX_REFUSED if the
   style is longer than a file may be; after that and BTX_MEMORY nothing was written. */
uint32_t btx_check_ends(const unsigned char *name, size_t name_len, const unsigned char *style, size_t style_len, uint32_t kept,
                        unsigned char *types, size_t types_room, unsigned char *notes, size_t notes_room, btx_bound *bound);

#ifdef __cplusplus
}
#endif
#endif
