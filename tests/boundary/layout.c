/* The sizes and offsets of the header's structs, and a model that the library read, seen through them. The Rust program of the same name
 * prints the same lines from its own declarations and its own reading. */
#include "files.h"

#define SIZE(t) printf("%s %zu\n", #t, sizeof(t))
#define FIELD(t, f) printf("%s.%s %zu %zu\n", #t, #f, offsetof(t, f), sizeof(((t *)0)->f))

/* No struct has padding: it is as long as its fields. */
#define OF(t, f) sizeof(((t *)0)->f)
#define PAIR (2 * sizeof(size_t))
#define ANSWER (3 * sizeof(size_t))
_Static_assert(sizeof(fp_object_net) == PAIR + OF(fp_object_net, pre) + OF(fp_object_net, post), "fp_object_net");
_Static_assert(sizeof(fp_event) == 2 + OF(fp_event, sync), "fp_event");
_Static_assert(sizeof(fp_model) == 5 * sizeof(size_t) + OF(fp_model, types) + OF(fp_model, pre) + OF(fp_model, post)
                                       + OF(fp_model, objects) + OF(fp_model, events), "fp_model");
_Static_assert(sizeof(fp_token) == OF(fp_token, place) + OF(fp_token, counts), "fp_token");
_Static_assert(sizeof(fp_entry) == sizeof(fp_token) + OF(fp_entry, times), "fp_entry");
_Static_assert(sizeof(fp_marking) == sizeof(size_t) + OF(fp_marking, entries), "fp_marking");
_Static_assert(sizeof(fp_read_model_answer) == ANSWER + sizeof(fp_model) + sizeof(fp_marking), "fp_read_model_answer");
_Static_assert(sizeof(fp_read_marking_answer) == ANSWER + sizeof(fp_marking), "fp_read_marking_answer");
_Static_assert(sizeof(fp_written) == ANSWER + sizeof(size_t), "fp_written");
_Static_assert(sizeof(fp_weighed) == ANSWER + 2 * sizeof(uint64_t) + sizeof(size_t), "fp_weighed");
_Static_assert(sizeof(fp_stepped) == ANSWER + sizeof(size_t) + sizeof(fp_marking), "fp_stepped");
_Static_assert(sizeof(fp_ran) == ANSWER + PAIR + sizeof(fp_marking), "fp_ran");
_Static_assert(sizeof(fp_spread) == ANSWER + sizeof(uint64_t), "fp_spread");
_Static_assert(sizeof(fp_converted) == ANSWER + sizeof(fp_model) + OF(fp_converted, numbers), "fp_converted");

static void structs(void) {
    SIZE(fp_object_net);
    FIELD(fp_object_net, places);
    FIELD(fp_object_net, transitions);
    FIELD(fp_object_net, pre);
    FIELD(fp_object_net, post);
    SIZE(fp_event);
    FIELD(fp_event, kind);
    FIELD(fp_event, index);
    FIELD(fp_event, sync);
    SIZE(fp_model);
    FIELD(fp_model, header);
    FIELD(fp_model, nets);
    FIELD(fp_model, places);
    FIELD(fp_model, moves);
    FIELD(fp_model, listed);
    FIELD(fp_model, types);
    FIELD(fp_model, pre);
    FIELD(fp_model, post);
    FIELD(fp_model, objects);
    FIELD(fp_model, events);
    SIZE(fp_token);
    FIELD(fp_token, place);
    FIELD(fp_token, counts);
    SIZE(fp_entry);
    FIELD(fp_entry, token);
    FIELD(fp_entry, times);
    SIZE(fp_marking);
    FIELD(fp_marking, len);
    FIELD(fp_marking, entries);
}

static void answers(void) {
    SIZE(fp_read_model_answer);
    FIELD(fp_read_model_answer, number);
    FIELD(fp_read_model_answer, beside);
    FIELD(fp_read_model_answer, column);
    FIELD(fp_read_model_answer, model);
    FIELD(fp_read_model_answer, start);
    SIZE(fp_read_marking_answer);
    FIELD(fp_read_marking_answer, column);
    FIELD(fp_read_marking_answer, marking);
    SIZE(fp_written);
    FIELD(fp_written, column);
    FIELD(fp_written, bytes);
    SIZE(fp_weighed);
    FIELD(fp_weighed, column);
    FIELD(fp_weighed, above);
    FIELD(fp_weighed, below);
    FIELD(fp_weighed, cover);
    SIZE(fp_stepped);
    FIELD(fp_stepped, column);
    FIELD(fp_stepped, used);
    FIELD(fp_stepped, marking);
    SIZE(fp_ran);
    FIELD(fp_ran, column);
    FIELD(fp_ran, fired);
    FIELD(fp_ran, at);
    FIELD(fp_ran, marking);
    SIZE(fp_spread);
    FIELD(fp_spread, column);
    FIELD(fp_spread, ways);
    SIZE(fp_converted);
    FIELD(fp_converted, number);
    FIELD(fp_converted, beside);
    FIELD(fp_converted, column);
    FIELD(fp_converted, model);
    FIELD(fp_converted, numbers);
}

/* Each part of the model by a sum in which every place counts differently. */
static size_t mixed(const uint8_t *v, size_t n) {
    size_t sum = 0;
    for (size_t i = 0; i < n; i++)
        sum = sum * 31 + v[i];
    return sum;
}

static size_t mixed_counts(const uint16_t *v, size_t n) {
    size_t sum = 0;
    for (size_t i = 0; i < n; i++)
        sum = sum * 31 + v[i];
    return sum;
}

static void model(const char *folder) {
    static uint8_t text[FP_FILE];
    static fp_read_model_answer r;
    r = fp_read_model(text, load(folder, "model", text));
    const fp_model *m = &r.model;
    printf("read %zu %zu %zu\n", r.number, r.beside, r.column);
    printf("model %zu %zu %zu %zu %zu\n", m->header, m->nets, m->places, m->moves, m->listed);
    printf("types %zu pre %zu post %zu\n", mixed(m->types, 32), mixed(m->pre, 1024), mixed(m->post, 1024));
    for (size_t n = 0; n < 8; n++)
        printf("net %zu %zu %zu %zu\n", m->objects[n].places, m->objects[n].transitions, mixed(m->objects[n].pre, 1024),
               mixed(m->objects[n].post, 1024));
    for (size_t e = 0; e < 64; e++)
        printf("event %u %u %zu\n", m->events[e].kind, m->events[e].index, mixed(m->events[e].sync, 256));
    printf("start %zu\n", r.start.len);
    for (size_t i = 0; i < 256; i++) {
        const fp_entry *e = &r.start.entries[i];
        printf("entry %u %zu %u\n", e->token.place, mixed_counts(e->token.counts, 32), e->times);
    }
}

int main(int argc, char **argv) {
    structs();
    answers();
    if (argc == 2)
        model(argv[1]);
    return 0;
}
