/* A planner in a few lines: it reads a plant, checks weights, runs a trace and writes the racks after it.
 *
 *     planner FOLDER
 *
 * The folder has the files model, weights and trace. Standard output has the lines that rackrun prints for them; on standard error each
 * refusal is said in words. The exit status is 0 if all was accepted and every step fired, 1 if something was refused, and 2 if a file
 * cannot be read or the answer cannot be written. */
#include "furzepenny.h"

#include <errno.h>
#include <stdio.h>
#include <stdlib.h>
#include <string.h>

/* A file's bytes. Of a file over FP_FILE one byte more is kept, which shows that it is too long. */
typedef struct {
    uint8_t bytes[FP_FILE + 1];
    size_t len;
} text;

/* Texts and held things are large: they stand here and not on the stack. */
static text model_text, weights_text, trace_text;
static fp_model model;
static fp_marking marking;

static const char *words(const char *name, size_t number) {
    switch (number) {
    case FP_TOO_LONG: return "the file has more than 65,536 bytes";
    case FP_SYNTAX: return "key, syntax, list length, or a line that is missing, unended or too many";
    case FP_RANGE: return "a number is out of range";
    case FP_IDLING: return "idling where there is no net, or an event without a move that has another net or no transition";
    case FP_ALL_ZERO: return "all weights are 0";
    case FP_UNBALANCED: return "the weights do not balance the event";
    case FP_OUTER: return "the racks taken or given do not fit the event";
    case FP_INNER_TAKEN: return "the racks taken hold too little for the event";
    case FP_INNER_GIVEN: return "the racks given do not hold what the event leaves";
    case FP_NOT_IN_MARKING: return "a rack taken is not there";
    case FP_NO_ROOM:
        return strcmp(name, "model") == 0 ? "the start has more than 65,535 racks alike"
                                          : "there would be more than 256 unlike racks, or more than 65,535 alike";
    case FP_BUFFER: return "the buffer is too small";
    case FP_NOT_HELD: return "the plant or the racks held are not as the engine left them";
    case FP_NOT_REPLACED: return "some place of the net has no event that idles like it";
    default: return "refused for a cause that this program does not know";
    }
}

/* Says a refusal in words. `before` is how many lines of the file stand before the one that the engine counts as the first; the column is
 * counted in the line itself. */
static bool accepted(const char *name, size_t number, size_t beside, size_t column, size_t before) {
    if (number == FP_ACCEPTED)
        return true;
    fprintf(stderr, "planner: %s: %s", name, words(name, number));
    if (number == FP_UNBALANCED || number == FP_NOT_REPLACED)
        fprintf(stderr, ", event %zu\n", beside);
    else if (number == FP_INNER_TAKEN || number == FP_INNER_GIVEN)
        fprintf(stderr, ", net %zu\n", beside);
    else if (number == FP_BUFFER)
        fprintf(stderr, ", %zu bytes are needed\n", beside);
    else if (column > 0)
        fprintf(stderr, ", line %zu, column %zu\n", before + beside, column);
    else if (beside > 0)
        fprintf(stderr, ", line %zu\n", before + beside);
    else
        fprintf(stderr, "\n");
    return false;
}

/* Reads a file. One that is not there is not taken for an empty one. */
static void load(const char *folder, const char *name, text *t) {
    char path[4096];
    int n = snprintf(path, sizeof path, "%s/%s", folder, name);
    errno = ENAMETOOLONG;
    FILE *f = n >= 0 && (size_t)n < sizeof path ? fopen(path, "rb") : NULL;
    if (f)
        t->len = fread(t->bytes, 1, sizeof t->bytes, f);
    if (!f || ferror(f)) {
        fprintf(stderr, "planner: %s/%s: %s\n", folder, name, strerror(errno));
        exit(2);
    }
    fclose(f);
}

static bool read_plant(void) {
    fp_read_at r = {FP_TOO_LONG, 0, 0};
    if (model_text.len <= FP_FILE)
        r = fp_read_model_at(model_text.bytes, model_text.len, &model, &marking);
    printf("model=%zu,%zu,%zu\n", r.number, r.beside, r.column);
    return accepted("model", r.number, r.beside, r.column, 0);
}

static bool check_weights(void) {
    fp_weighed w = {FP_TOO_LONG, 0, 0, 0, 0, 0};
    if (weights_text.len <= FP_FILE)
        w = fp_check_weights_at(&model, &marking, weights_text.bytes, weights_text.len);
    printf("weights=%zu,%zu,%zu\n", w.number, w.beside, w.column);
    if (!accepted("weights", w.number, w.beside, w.column, 0))
        return false;
    printf("sum=%s%llu\ncover=%zu\n", w.below ? "-" : "", (unsigned long long)(w.above + w.below), w.cover);
    return true;
}

/* Runs the trace. The lines of a step are counted from its own first; the byte where the run stopped says how many stand before it. */
static bool run_trace(void) {
    fp_ran_at r = {FP_TOO_LONG, 0, 0, 0, 0};
    if (trace_text.len <= FP_FILE)
        r = fp_run_at(&model, &marking, trace_text.bytes, trace_text.len);
    printf("fired=%zu\nstop=%zu,%zu,%zu\n", r.fired, r.number, r.beside, r.column);
    size_t before = 0;
    for (size_t i = 0; i < r.at; i++)
        before += trace_text.bytes[i] == '\n';
    if (r.number != FP_ACCEPTED && r.at > 0)
        fprintf(stderr, "planner: trace: step %zu, which begins at line %zu, is turned down\n", r.fired + 1, before + 1);
    return accepted("trace", r.number, r.beside, r.column, before);
}

/* Writes the racks: the marking's text, its first key `start` replaced by rackrun's. */
static bool write_racks(void) {
    static uint8_t out[FP_MARKING_TEXT];
    const size_t key = strlen("start=");
    fp_written w = fp_write_marking_at(&model, &marking, out, sizeof out);
    if (!accepted("racks", w.number, w.beside, w.column, 0))
        return false;
    printf("held=");
    fwrite(out + key, 1, w.bytes - key, stdout);
    return true;
}

int main(int argc, char **argv) {
    if (argc != 2) {
        fprintf(stderr, "planner FOLDER\n");
        return 2;
    }
    if (fp_version() / 10000 != FP_VERSION / 10000) {
        fprintf(stderr, "planner: compiled for version %d, linked with %zu\n", FP_VERSION, fp_version());
        return 2;
    }
    load(argv[1], "model", &model_text);
    load(argv[1], "weights", &weights_text);
    load(argv[1], "trace", &trace_text);
    bool good = read_plant() && check_weights();
    if (good) {
        good = run_trace();
        good = write_racks() && good;
    }
    if (fflush(stdout) != 0 || ferror(stdout)) {
        fprintf(stderr, "planner: standard output: %s\n", strerror(errno));
        return 2;
    }
    return good ? 0 : 1;
}
