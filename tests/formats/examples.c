/* Runs an example of docs/FORMATS.md against the library, and prints it again with what the calls answered.
 *
 *     examples TEXTS EXAMPLE FOLDERS
 *
 * TEXTS has the page's own model, weights and trace. Each `rackrun` of the example leaves a new folder under FOLDERS with the three files
 * and the listing that the library wrote for them, so that the program itself can be run there. */
#include "furzepenny.h"

#include <stdio.h>
#include <stdlib.h>
#include <string.h>
#include <sys/stat.h>

#define MOST 1100000

typedef struct {
    uint8_t bytes[MOST];
    size_t len;
    bool missing;
} text;

static text page[3], file[3], lent, lines;
static const char *const names[3] = {"model", "weights", "trace"};
static fp_model model;
static fp_marking marking;
static uint8_t out[MOST];

static void stop(const char *why, const char *what) {
    fprintf(stderr, "%s: %s\n", why, what);
    exit(2);
}

static void add(text *t, const void *bytes, size_t len) {
    if (len > MOST - t->len)
        stop("a text is too long", "for this program");
    memcpy(t->bytes + t->len, bytes, len);
    t->len += len;
}

static void load(const char *path, text *t) {
    FILE *f = fopen(path, "rb");
    if (!f)
        stop("cannot be opened", path);
    t->len = fread(t->bytes, 1, MOST, f);
    fclose(f);
}

static void save(const char *folder, const char *name, const uint8_t *bytes, size_t len) {
    char path[4096];
    snprintf(path, sizeof path, "%s/%s", folder, name);
    FILE *f = fopen(path, "wb");
    if (!f || fwrite(bytes, 1, len, f) != len || fclose(f))
        stop("cannot be written", path);
}

/* Bytes of the page as a line that is lent has them: \r stands for CR, and # for a number. */
static size_t plain(const char *line, const char *end, size_t number, char *to) {
    size_t n = 0;
    for (const char *c = line; c < end; c++) {
        bool cr = c[0] == '\\' && c[1] == 'r';
        if (*c == '#')
            n += (size_t)sprintf(to + n, "%zu", number);
        else
            to[n++] = cr ? '\r' : *c;
        c += cr;
    }
    return n;
}

/* A line as the page writes it, with its LF; one that ends in × N stands for N such lines, with 0, 1, 2 .. in the place of #. */
static void add_line(text *t, const char *line, bool ended) {
    char bytes[16384];
    const char *sign = strstr(line, " \xc3\x97 ");
    const char *end = sign ? sign : line + strlen(line);
    size_t times = sign ? strtoul(sign + 4, NULL, 10) : 1;
    for (size_t number = 0; number < times; number++) {
        size_t n = plain(line, end, number, bytes);
        if (ended)
            bytes[n++] = '\n';
        add(t, bytes, n);
    }
}

/* The text with its line number `at`, from 1, replaced, or added behind the last. */
static void with_line(const text *base, size_t at, const char *line, text *t) {
    size_t number = 1, i = 0;
    for (; i < base->len && number < at; i++)
        number += base->bytes[i] == '\n';
    add(t, base->bytes, i);
    add_line(t, line, true);
    while (i < base->len && base->bytes[i] != '\n')
        i++;
    if (i < base->len)
        add(t, base->bytes + i + 1, base->len - i - 1);
}

/* The text with each line that is said replaced, as in `line 1: eos=2; line 19: alone=1`. */
static void with_lines(const text *base, const char *said, text *t) {
    static text before;
    char line[4096];
    size_t number;
    int at = 0;
    add(t, base->bytes, base->len);
    for (; sscanf(said, "line %zu: %n", &number, &at) == 1 && at; at = 0) {
        const char *next = strstr(said, "; line ");
        int len = next ? (int)(next - said) : (int)strlen(said);
        snprintf(line, sizeof line, "%.*s", len - at, said + at);
        before = *t;
        t->len = 0;
        with_line(&before, number, line, t);
        said += next ? len + 2 : len;
    }
    if (*said)
        stop("no such line", said);
}

/* Sets `lent` to the text that is meant behind a call's name: the lines under it, or the page's own text, changed as is said. */
static void lend(const char *said, const text *base) {
    size_t n;
    int at = 0;
    lent.len = 0;
    lent.missing = false;
    if (!strcmp(said, "missing"))
        lent.missing = true;
    else if (sscanf(said, "of %zu bytes", &n) == 1)
        for (; n; n--)
            add(&lent, "x", 1);
    else if (sscanf(said, "line %zu: %n", &n, &at) == 1 && at && base)
        with_lines(base, said, &lent);
    else if (lines.len && (!*said || !strcmp(said, "unended")))
        add(&lent, lines.bytes, lines.len - (*said != 0));
    else if (!*said && base)
        add(&lent, base->bytes, base->len);
    else
        stop("no such text", said);
}

/* Bytes that were written, line by line under the answer; those behind them have to be as they were. */
static void show(size_t len, size_t room) {
    for (size_t i = 0; i < len; i++) {
        if (i == 0 || out[i - 1] == '\n')
            printf("  ");
        putchar(out[i]);
    }
    for (size_t i = len; i < room; i++)
        if (out[i] != '.')
            stop("a byte was touched", "behind the text");
}

static size_t room_of(const char *said) {
    size_t room = strtoul(said, NULL, 10);
    if (room > MOST)
        stop("too much room", said);
    memset(out, '.', sizeof out);
    return room;
}

static void set(const char *said) {
    char name[32];
    size_t i = 0, v;
    if (sscanf(said, "%31[a-z.][%zu] %zu", name, &i, &v) != 3 && sscanf(said, "%31[a-z.] %zu", name, &v) != 2)
        stop("nothing to set", said);
    if (!strcmp(name, "model.header"))
        model.header = v;
    else if (!strcmp(name, "model.places"))
        model.places = v;
    else if (!strcmp(name, "model.types") && i < 32)
        model.types[i] = (uint8_t)v;
    else if (!strcmp(name, "model.pre") && i < 1024)
        model.pre[i] = (uint8_t)v;
    else if (!strcmp(name, "marking.len"))
        marking.len = v;
    else if (!strcmp(name, "marking.place") && i < FP_TOKENS)
        marking.entries[i].token.place = (uint16_t)v;
    else if (!strcmp(name, "marking.counts") && i < FP_TOKENS * FP_PLACES)
        marking.entries[i / FP_PLACES].token.counts[i % FP_PLACES] = (uint16_t)v;
    else if (!strcmp(name, "marking.times") && i < FP_TOKENS)
        marking.entries[i].times = (uint16_t)v;
    else
        stop("nothing to set", said);
}

static void set_file(const char *said) {
    for (int i = 0; i < 3; i++) {
        size_t n = strlen(names[i]);
        if (!strncmp(said, names[i], n) && (said[n] == ' ' || !said[n])) {
            lend(said + n + (said[n] == ' '), &page[i]);
            file[i] = lent;
            return;
        }
    }
    stop("no such file", said);
}

static fp_written list(size_t room) {
    return fp_listing(file[0].bytes, file[0].len, file[1].bytes, file[1].len, file[2].bytes, file[2].len, out, room);
}

static void rackrun(const char *folders) {
    static int runs;
    char folder[4000];
    fp_written w = list(room_of("65536"));
    if (w.number)
        stop("no listing", "rackrun");
    printf("=\n");
    show(w.bytes, 65536);
    snprintf(folder, sizeof folder, "%s.%d", folders, ++runs);
    if (mkdir(folder, 0777))
        stop("no folder", folder);
    for (int i = 0; i < 3; i++)
        if (!file[i].missing)
            save(folder, names[i], file[i].bytes, file[i].len);
    save(folder, "listing", out, w.bytes);
}

static void read_model(void) {
    static fp_read_model_answer r;
    r = fp_read_model(lent.bytes, lent.len);
    model = r.model;
    marking = r.start;
    printf("= %zu,%zu,%zu\n", r.number, r.beside, r.column);
}

static void read_marking(void) {
    static fp_read_marking_answer r;
    r = fp_read_marking(model, lent.bytes, lent.len);
    marking = r.marking;
    printf("= %zu,%zu,%zu\n", r.number, r.beside, r.column);
}

/* The new number of each event of the model that was in hand, and the first lines of the events that there are now. */
static void convert(void) {
    static fp_converted c;
    static const char *const keys[] = {"", "event", "idle", "alone"};
    size_t listed = model.listed > FP_EVENTS ? FP_EVENTS : model.listed;
    c = fp_convert(model);
    model = c.model;
    printf("= %zu,%zu,%zu events %zu numbers", c.number, c.beside, c.column, model.listed);
    for (size_t k = 0; k < listed; k++)
        printf("%c%u", k ? ',' : ' ', c.numbers[k]);
    printf("\n");
    for (size_t k = 0; k < model.listed; k++)
        printf("  %s=%u\n", keys[model.events[k].kind], model.events[k].index);
    for (size_t k = listed; k < FP_EVENTS; k++)
        if (c.numbers[k])
            stop("a number", "behind the last event");
}

static void check_weights(void) {
    fp_weighed w = fp_check_weights(model, marking, lent.bytes, lent.len);
    printf("= %zu,%zu,%zu sum %s%llu cover %zu\n", w.number, w.beside, w.column, w.below ? "-" : "",
           (unsigned long long)(w.above + w.below), w.cover);
}

static void step(void) {
    static fp_stepped s;
    s = fp_step(model, marking, lent.bytes, lent.len);
    marking = s.marking;
    printf("= %zu,%zu,%zu used %zu\n", s.number, s.beside, s.column, s.used);
}

static void run(void) {
    static fp_ran r;
    r = fp_run(model, marking, lent.bytes, lent.len);
    marking = r.marking;
    printf("= %zu,%zu,%zu fired %zu at %zu\n", r.number, r.beside, r.column, r.fired, r.at);
}

static void written(fp_written w, size_t room) {
    printf("= %zu,%zu,%zu bytes %zu\n", w.number, w.beside, w.column, w.bytes);
    show(w.bytes, room);
}

static void ways(const char *said) {
    size_t tokens, racks;
    if (sscanf(said, "%zu %zu", &tokens, &racks) != 2)
        stop("no spread", said);
    fp_spread s = fp_ways(tokens, racks);
    printf("= %zu,%zu,%zu ways %llu\n", s.number, s.beside, s.column, (unsigned long long)s.ways);
}

/* One call: its name, and what is said behind it; `lines` has the lines under it. */
static void call(const char *name, const char *said, const char *folders) {
    if (!strcmp(name, "set"))
        set(said);
    else if (!strcmp(name, "file"))
        set_file(said);
    else if (!strcmp(name, "rackrun"))
        rackrun(folders);
    else if (!strcmp(name, "test_model"))
        printf("= %s\n", fp_test_model(model) ? "true" : "false");
    else if (!strcmp(name, "test_marking"))
        printf("= %s\n", fp_test_marking(model, marking) ? "true" : "false");
    else if (!strcmp(name, "convert"))
        convert();
    else if (!strcmp(name, "write_marking")) {
        size_t room = room_of(said);
        written(fp_write_marking(model, marking, out, room), room);
    } else if (!strcmp(name, "listing")) {
        size_t room = room_of(said);
        written(list(room), room);
    } else if (!strcmp(name, "ways"))
        ways(said);
    else if (!strcmp(name, "read_model"))
        lend(said, &page[0]), read_model();
    else if (!strcmp(name, "check_weights"))
        lend(said, &page[1]), check_weights();
    else if (!strcmp(name, "run"))
        lend(said, &page[2]), run();
    else if (!strcmp(name, "read_marking"))
        lend(said, NULL), read_marking();
    else if (!strcmp(name, "step"))
        lend(said, NULL), step();
    else
        stop("no such call", name);
}

/* The example, call by call: lines that begin with a blank belong to the call above them, and the answers that it has are left out. */
static void example(FILE *f, const char *folders) {
    char line[4096], name[32] = "", said[4096] = "";
    bool answer = false;
    for (bool more = true; more;) {
        more = fgets(line, sizeof line, f) != NULL;
        if (more)
            line[strcspn(line, "\n")] = 0;
        if (more && line[0] == ' ') {
            if (!answer) {
                printf("%s\n", line);
                add_line(&lines, line + 2, true);
            }
            continue;
        }
        if (*name)
            call(name, said, folders);
        lines.len = 0;
        *name = 0;
        answer = more && line[0] == '=';
        if (!more || answer)
            continue;
        printf("%s\n", line);
        *said = 0;
        if (line[0] != '#' && sscanf(line, "%31s %4095[^\n]", name, said) < 1)
            stop("an empty line", "in an example");
    }
}

int main(int argc, char **argv) {
    if (argc != 4)
        stop("usage", "examples TEXTS EXAMPLE FOLDERS");
    for (int i = 0; i < 3; i++) {
        char path[4096];
        snprintf(path, sizeof path, "%s/%s", argv[1], names[i]);
        load(path, &page[i]);
        file[i] = page[i];
    }
    fp_read_model_answer r = fp_read_model(page[0].bytes, page[0].len);
    if (r.number)
        stop("the page's own model is refused", argv[1]);
    model = r.model;
    marking = r.start;
    FILE *f = fopen(argv[2], "r");
    if (!f)
        stop("cannot be opened", argv[2]);
    example(f, argv[3]);
    fclose(f);
    return 0;
}
