/* Runner's calls and Reader's alone: reads a folder's plant, runs its trace, and prints the lines that rackrun prints of that. */
#include "files.h"

static uint8_t model_text[FP_FILE], trace_text[FP_FILE], out[FP_MARKING_TEXT];
static fp_model model;
static fp_marking marking;

int main(int argc, char **argv) {
    if (argc != 2)
        return 2;
    size_t model_len = load(argv[1], "model", model_text), trace_len = load(argv[1], "trace", trace_text);
    if (fp_read_model_at(model_text, model_len, &model, &marking).number != FP_ACCEPTED)
        return 1;
    fp_ran_at r = fp_run_at(&model, &marking, trace_text, trace_len);
    fp_stepped_at s = fp_step_at(&model, &marking, trace_text + r.at, trace_len - r.at);
    if (s.number != r.number || s.beside != r.beside || s.column != r.column || fp_ways(2, 3).ways != 6)
        return 1;
    fp_written w = fp_write_marking_at(&model, &marking, out, sizeof out);
    printf("fired=%zu\nstop=%zu,%zu,%zu\nheld=%.*s", r.fired, r.number, r.beside, r.column, (int)w.bytes - 6, (const char *)out + 6);
    return 0;
}
