/* Reads a script: its words, its lines, and the entries that `raw` lines spell. */
#include "script.h"

#include <stdio.h>
#include <stdlib.h>
#include <string.h>

enum { MOST_WORDS = 16 };

static int line_number;

static _Noreturn void refuse(const char *what)
{
    fprintf(stderr, "kernelrun: line %d: %s\n", line_number, what);
    exit(3);
}

static uint64_t number(const char *word)
{
    char *end;
    uint64_t value = strtoull(word, &end, 10);
    if (*word < '0' || *word > '9' || *end)
        refuse("a number is expected");
    return value;
}

/* A label that is named before its line may have come: resolved once all lines are read. */
struct naming {
    char label[17];
    int line;
    int *entry;          /* where the entry's place goes */
    uint64_t *target;    /* or its user_data */
};

struct reader {
    struct script *script;
    struct actor *actor;       /* whose lines these are */
    int ring;                  /* its number, -1 of the clock */
    int batches[MOST_RINGS];   /* how many `submit` lines there were */
    bool open[MOST_RINGS];     /* whether entries wait for one */
    struct naming *namings;
    size_t namings_len;
};

static struct naming *name(struct reader *reader, const char *label)
{
    reader->namings = realloc(reader->namings, (reader->namings_len + 1) * sizeof *reader->namings);
    if (!reader->namings || strlen(label) > 16)
        refuse("a label is too long");
    struct naming *naming = &reader->namings[reader->namings_len++];
    memset(naming, 0, sizeof *naming);
    memcpy(naming->label, label, strlen(label) + 1);
    naming->line = line_number;
    return naming;
}

static uint64_t little(const unsigned char *bytes, int len)
{
    uint64_t value = 0;
    while (len-- > 0)
        value = value << 8 | bytes[len];
    return value;
}

/* The entry of the profile that the bytes are (docs/FORMATS.md has the rows), if they are one. */
static bool decode(struct entry *entry)
{
    static const struct row { unsigned char opcode; enum kind kind; } rows[] = {
        {0, NOP}, {6, POLL}, {11, TIMEOUT}, {12, REMOVE}, {14, CANCEL},
        {15, LINK_TIMEOUT}, {19, CLOSE}, {22, READ}, {23, WRITE}, {30, SPLICE},
    };
    const unsigned char *at = entry->bytes;
    const uint64_t none = 0xffffffff, current = UINT64_MAX, most = 2147483647;
    uint64_t fd = little(at + 4, 4), off = little(at + 8, 8), addr = little(at + 16, 8);
    uint64_t len = little(at + 24, 4), word = little(at + 28, 4), in = little(at + 44, 4);
    const struct row *row = NULL;
    for (size_t i = 0; i < sizeof rows / sizeof *rows; i++)
        if (rows[i].opcode == at[0])
            row = &rows[i];
    bool blank = !little(at + 2, 2) && !little(at + 40, 4) && !little(at + 48, 8) && !little(at + 56, 8);
    if (!row || !blank || (at[1] & ~14) || (row->kind != SPLICE && in != 0))
        return false;
    bool fits = false;
    switch (row->kind) {
    case NOP: fits = fd == none && !off && !addr && !len && !word; break;
    case POLL: fits = !off && !addr && !len && !(word & ~UINT64_C(29)); break;
    case TIMEOUT: fits = fd == none && off <= 1023 && addr <= most && len == 1 && (word == 0 || word == 32); break;
    case REMOVE: fits = fd == none && !off && !len && !word; break;
    case CANCEL: fits = fd == none && !off && !len && word <= 1; break;
    case LINK_TIMEOUT: fits = fd == none && !off && addr <= most && len == 1 && !word && !(at[1] & 2); break;
    case CLOSE: fits = !off && !addr && !len && !word; break;
    case READ: case WRITE: fits = (off == 0 || off == current) && !addr && len <= most && !word; break;
    case SPLICE: fits = off == current && addr == current && len <= most && !word; break;
    case RAW: break;
    }
    if (!fits)
        return false;
    entry->kind = row->kind;
    entry->fd = fd, entry->fd_in = in, entry->len = len, entry->mask = word;
    entry->ticks = addr, entry->target = addr, entry->count = off;
    entry->etime_ok = word == 32, entry->all = word == 1, entry->from_zero = off == 0;
    return true;
}

static void read_raw(struct entry *entry, const char *hex)
{
    if (strlen(hex) != 128)
        refuse("128 hexadecimal digits are expected");
    for (int i = 0; i < 64; i++) {
        unsigned byte;
        if (sscanf(hex + 2 * i, "%2x", &byte) != 1)
            refuse("128 hexadecimal digits are expected");
        entry->bytes[i] = (unsigned char)byte;
    }
    entry->user_data = little(entry->bytes + 32, 8);
    entry->drain = entry->bytes[1] & 2, entry->hard = entry->bytes[1] & 8;
    entry->link = (entry->bytes[1] & 12) != 0;
    decode(entry);
}

static void read_option(struct entry *entry, const char *word)
{
    if (!strcmp(word, "link"))
        entry->link = true;
    else if (!strcmp(word, "hard"))
        entry->link = entry->hard = true;
    else if (!strcmp(word, "drain"))
        entry->drain = true;
    else if (!strcmp(word, "etime-ok"))
        entry->etime_ok = true;
    else if (!strcmp(word, "all"))
        entry->all = true;
    else if (!strncmp(word, "ud=", 3))
        entry->user_data = number(word + 3);
    else if (!strncmp(word, "count=", 6))
        entry->count = number(word + 6);
    else
        refuse("unknown option");
}

/* The arguments of an entry line, from words[2] on. */
static void read_arguments(struct reader *reader, struct entry *entry, char **words)
{
    switch (entry->kind) {
    case NOP:
        break;
    case READ:
        entry->fd = number(words[2]), entry->len = number(words[3]);
        break;
    case WRITE:
        entry->fd = number(words[2]), entry->text = strcmp(words[3], "-") ? strdup(words[3]) : "";
        entry->len = strlen(entry->text);
        break;
    case CLOSE:
        entry->fd = number(words[2]);
        break;
    case POLL:
        entry->fd = number(words[2]), entry->mask = number(words[3]);
        break;
    case TIMEOUT: case LINK_TIMEOUT:
        entry->ticks = number(words[2]);
        break;
    case CANCEL: case REMOVE:
        if (!strncmp(words[2], "ud=", 3))
            entry->target = number(words[2] + 3);
        else
            name(reader, words[2])->target = &entry->target;
        break;
    case SPLICE:
        entry->fd_in = number(words[2]), entry->fd = number(words[3]), entry->len = number(words[4]);
        break;
    case RAW:
        read_raw(entry, words[2]);
        break;
    }
}

/* A line of an entry, where it is one. */
static bool read_entry(struct reader *reader, char **words, int len)
{
    static const struct { const char *word; enum kind kind; int least; } kinds[] = {
        {"nop", NOP, 2}, {"read", READ, 4}, {"write", WRITE, 4}, {"close", CLOSE, 3}, {"poll", POLL, 4},
        {"timeout", TIMEOUT, 3}, {"link-timeout", LINK_TIMEOUT, 3}, {"cancel", CANCEL, 3}, {"remove", REMOVE, 3},
        {"splice", SPLICE, 5}, {"raw", RAW, 3},
    };
    for (size_t i = 0; i < sizeof kinds / sizeof *kinds; i++) {
        if (strcmp(words[0], kinds[i].word))
            continue;
        struct script *script = reader->script;
        if (!reader->actor || reader->ring < 0 || len < kinds[i].least || script->entries == MOST_ENTRIES || strlen(words[1]) > 16)
            refuse("no entry line");
        struct entry *entry = &script->entry[script->entries++];
        memcpy(entry->label, words[1], strlen(words[1]) + 1);
        entry->kind = kinds[i].kind, entry->ring = reader->ring, entry->batch = reader->batches[reader->ring];
        entry->user_data = (uint64_t)script->entries;
        reader->open[reader->ring] = true;
        read_arguments(reader, entry, words);
        for (int word = kinds[i].least; word < len; word++)
            read_option(entry, words[word]);
        return true;
    }
    return false;
}

static void read_declaration(struct reader *reader, char **words, int len)
{
    struct script *script = reader->script;
    if (!strcmp(words[0], "pipe") && len == 2 && script->pipes < MOST_PIPES) {
        script->capacity[script->pipes++] = number(words[1]);
    } else if (!strcmp(words[0], "ring") && len >= 2 && script->rings < MOST_RINGS) {
        struct actor *ring = &script->ring[script->rings++];
        ring->cells = number(words[1]);
        ring->posts = len > 2 ? number(words[2]) : 2 * ring->cells;
    } else if (!strcmp(words[0], "on") && len == 2 && !strcmp(words[1], "clock")) {
        reader->actor = &script->clock, reader->ring = -1;
    } else if (!strcmp(words[0], "on") && len == 2 && number(words[1]) < (uint64_t)script->rings) {
        reader->ring = (int)number(words[1]), reader->actor = &script->ring[reader->ring];
    } else {
        refuse("unknown line");
    }
}

/* A line of the actor that is no entry, where it is one. */
static bool read_deed(struct reader *reader, char **words, int len)
{
    struct deed deed = {.kind = SUBMIT};
    if (!strcmp(words[0], "submit") && len == 1 && reader->ring >= 0 && reader->open[reader->ring]) {
        deed.batch = reader->batches[reader->ring]++;
        reader->open[reader->ring] = false;
    } else if (!strcmp(words[0], "wait") && len == 2) {
        deed.kind = WAIT;
    } else if (!strcmp(words[0], "armed") && len == 2 && reader->ring < 0) {
        deed.kind = ARMED;
    } else if (!strcmp(words[0], "tick") && len == 2 && reader->ring < 0) {
        deed.kind = TICK, deed.tick = number(words[1]);
    } else {
        return false;
    }
    struct actor *actor = reader->actor;
    if (!actor || actor->deeds_len == MOST_DEEDS)
        refuse("a line out of place");
    if (!actor->deeds && !(actor->deeds = calloc(MOST_DEEDS, sizeof *actor->deeds)))
        refuse("no memory");
    actor->deeds[actor->deeds_len] = deed;
    if (deed.kind == WAIT || deed.kind == ARMED)
        name(reader, words[1])->entry = &actor->deeds[actor->deeds_len].entry;
    actor->deeds_len++;
    return true;
}

static void resolve(struct reader *reader)
{
    for (size_t i = 0; i < reader->namings_len; i++) {
        struct naming *naming = &reader->namings[i];
        int found = -1;
        for (int at = 0; at < reader->script->entries; at++)
            if (!strcmp(reader->script->entry[at].label, naming->label))
                found = at;
        line_number = naming->line;
        if (found < 0)
            refuse("unknown label");
        if (naming->entry)
            *naming->entry = found;
        else
            *naming->target = reader->script->entry[found].user_data;
    }
    free(reader->namings);
}

void read_script(const char *path, struct script *script)
{
    struct reader reader = {.script = script, .ring = -2};
    FILE *file = fopen(path, "r");
    if (!file) {
        fprintf(stderr, "kernelrun: %s can't be opened\n", path);
        exit(3);
    }
    char *line = NULL;
    size_t room = 0;
    while (getline(&line, &room, file) >= 0) {
        char *words[MOST_WORDS];
        int len = 0;
        line_number++;
        for (char *word = strtok(line, " \n"); word && len < MOST_WORDS; word = strtok(NULL, " \n"))
            words[len++] = word;
        if (len == 0 || words[0][0] == '#')
            continue;
        if (!read_entry(&reader, words, len) && !read_deed(&reader, words, len))
            read_declaration(&reader, words, len);
    }
    free(line);
    fclose(file);
    resolve(&reader);
}

uint64_t last_tick(const struct script *script)
{
    uint64_t last = 0;
    for (size_t i = 0; i < script->clock.deeds_len; i++)
        if (script->clock.deeds[i].kind == TICK)
            last = script->clock.deeds[i].tick;
    return last;
}

size_t tick_lines(const struct script *script)
{
    size_t lines = 0;
    for (size_t i = 0; i < script->clock.deeds_len; i++)
        lines += script->clock.deeds[i].kind == TICK;
    return lines;
}
