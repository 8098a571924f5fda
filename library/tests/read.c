/* read FILE [NAME TEXT]..: the records of a database, where these strings are known, a line each; and that in smaller rooms the same begin is written. */
#include "jobs.h"

#include <stdio.h>
#include <stdlib.h>
#include <string.h>

enum { MOST_RECORDS = 1000, MOST_TEXTS = 100000, MOST_STRINGS = 10 };

static const unsigned char *bytes_of(const char *word) { return (const unsigned char *)word; }

/* The records and their texts, as far as there is room for them, and the answer. */
typedef struct {
    btx_record records[MOST_RECORDS];
    unsigned char texts[MOST_TEXTS];
    btx_sizes sizes;
    uint32_t answer;
} reading;

static reading *read_in(const char *file, const btx_text *text, const btx_string *strings, size_t count, size_t records, size_t texts) {
    reading *made = calloc(1, sizeof *made);
    must(made != NULL, "there is no memory");
    memset(made->records, 0xee, sizeof made->records);
    memset(made->texts, 0xee, sizeof made->texts);
    made->answer = btx_read(bytes_of(file), strlen(file), text->at, text->len, strings, count, made->records, records, made->texts, texts, &made->sizes);
    return made;
}

static void show(const reading *made) {
    static const char *const KINDS[] = {"comment", "preamble", "string", "entry", "field", "end", "wrong"};
    for (size_t i = 0; i < made->sizes.records; i++) {
        const btx_record *one = &made->records[i];
        printf("%s %zu-%zu:%zu %.*s=%.*s%s\n", KINDS[one->kind], one->start, one->end, one->line, (int)one->name_len, (const char *)made->texts + one->name_at,
               (int)one->text_len, (const char *)made->texts + one->text_at, one->is_whole ? "" : " (left out)");
    }
}

/* In smaller rooms the first records and texts are written, nothing after them, and the sizes are those of all. */
static void check_rooms(const char *file, const btx_text *text, const btx_string *strings, size_t count, const reading *whole) {
    for (size_t records = 0; records <= whole->sizes.records; records++) {
        size_t texts = whole->sizes.texts * records / (whole->sizes.records + 1);
        reading *made = read_in(file, text, strings, count, records, texts);
        int is_all = records == whole->sizes.records && texts == whole->sizes.texts;
        must(made->answer == (is_all ? BTX_DONE : BTX_FULL), "btx_read answers %u in a room of %zu records", made->answer, records);
        must(!memcmp(&made->sizes, &whole->sizes, sizeof made->sizes), "the sizes are others in a room of %zu records", records);
        must(!memcmp(made->records, whole->records, records * sizeof *made->records), "the first %zu records are others", records);
        must(!memcmp(made->texts, whole->texts, texts), "the first %zu bytes of the texts are others", texts);
        must(made->texts[texts] == 0xee && *(unsigned char *)&made->records[records] == 0xee, "more is written than there is room for");
        free(made);
    }
}

int main(int count, char **words) {
    must(count >= 2 && count % 2 == 0 && (count - 2) / 2 <= MOST_STRINGS, "read FILE [NAME TEXT]..");
    static unsigned char read[MOST_TEXTS];
    FILE *file = fopen(words[1], "rb");
    must(file != NULL, "%s can't be opened", words[1]);
    btx_text text = {read, fread(read, 1, sizeof read, file)};
    fclose(file);
    btx_string strings[MOST_STRINGS];
    size_t known = 0;
    for (int i = 2; i < count; i += 2, known++) {
        strings[known].name = (btx_text){bytes_of(words[i]), strlen(words[i])};
        strings[known].text = (btx_text){bytes_of(words[i + 1]), strlen(words[i + 1])};
    }
    reading *whole = read_in(words[1], &text, strings, known, MOST_RECORDS - 1, MOST_TEXTS - 1);
    must(whole->answer == BTX_DONE, "btx_read answers %u", whole->answer);
    show(whole);
    check_rooms(words[1], &text, strings, known, whole);
    free(whole);
    return 0;
}
