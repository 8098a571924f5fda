/* A stand-in for TeX's search library, for checks where there is no TeX: with this in the place of libkpathsea.so.6, a name is found as it stands or in the folder
 * FAKE_TREE. FAKE_OUT and FAKE_IN list words with ':' between them: a name with one of them may not be written, or read. All other variables are those of the
 * environment. Each call for a file is a line of FAKE_CALLS, where that is set. */
#include <stdio.h>
#include <stdlib.h>
#include <string.h>
#include <unistd.h>

static char *joined(const char *folder, const char *name)
{
    char *path = malloc(strlen(folder) + strlen(name) + 2);
    sprintf(path, "%s/%s", folder, name);
    return path;
}

static char *found(const char *folder, const char *name)
{
    char *path = *folder && *name != '/' ? joined(folder, name) : strdup(name);
    return access(path, R_OK) == 0 ? path : NULL;
}

static void note(const char *name)
{
    const char *path = getenv("FAKE_CALLS");
    FILE *calls = path ? fopen(path, "a") : NULL;
    if (calls) {
        fprintf(calls, "%s\n", name);
        fclose(calls);
    }
}

/* Whether no word of the variable's is in the name. */
static int is_allowed(const char *variable, const char *name)
{
    const char *words = getenv(variable);
    char *copy = strdup(words ? words : ""), *word;
    for (word = strtok(copy, ":"); word; word = strtok(NULL, ":"))
        if (strstr(name, word))
            return 0;
    return 1;
}

void *kpathsea_new(void)
{
    return malloc(1);
}

void kpathsea_set_program_name(void *search, const char *program, const char *name)
{
    (void)search, (void)program, (void)name;
}

char *kpathsea_find_file(void *search, const char *name, int format, int must_exist)
{
    const char *tree = getenv("FAKE_TREE");
    char *path = found("", name);
    (void)search, (void)format, (void)must_exist;
    note(name);
    return path ? path : found(tree ? tree : "", name);
}

char *kpathsea_path_search(void *search, const char *path, const char *name, int must_exist)
{
    (void)search, (void)must_exist;
    return found(path, name);
}

char *kpathsea_init_format(void *search, int format)
{
    const char *tree = getenv("FAKE_TREE");
    (void)search, (void)format;
    return strdup(tree ? tree : ".");
}

char *kpathsea_path_expand(void *search, const char *path)
{
    (void)search;
    return strdup(path);
}

const char *kpathsea_cnf_get(void *search, const char *name)
{
    (void)search, (void)name;
    return NULL;
}

char *kpathsea_var_value(void *search, const char *name)
{
    const char *value = getenv(name);
    (void)search;
    return value ? strdup(value) : NULL;
}

int kpathsea_in_name_ok_silent(void *search, const char *name)
{
    (void)search;
    return is_allowed("FAKE_IN", name);
}

int kpathsea_out_name_ok_silent(void *search, const char *name)
{
    (void)search;
    return is_allowed("FAKE_OUT", name);
}
