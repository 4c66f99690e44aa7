/* What stands between C and the proved calls: it checks what those may take for granted of pointers. Nothing here is proved. */
#include "cxlplan.h"

/* The proved calls, exports of the crate cxl_c. They take no null pointer, and what they write overlaps nothing. */
uint8_t cxlplan_proved_route(const uint8_t *, size_t, uint64_t, uint8_t *, size_t, size_t *);
uint8_t cxlplan_proved_list(const uint8_t *, size_t, uint8_t *, size_t, size_t *);
uint8_t cxlplan_proved_normal(const uint8_t *, size_t, uint8_t *, size_t, size_t *);
uint8_t cxlplan_proved_check(const uint8_t *, size_t, const uint8_t *, size_t, const uint8_t *, size_t, uint8_t *, size_t, size_t *);
uint8_t cxlplan_proved_plan(const uint8_t *, size_t, const uint8_t *, size_t, const uint8_t *, size_t, uint8_t *, size_t, size_t *);
/* Calls over a script: on the registers after reset, and on those of an image, which comes before the script. */
typedef uint8_t after_reset(const uint8_t *, size_t, const uint8_t *, size_t, const uint8_t *, size_t, uint8_t *, size_t, size_t *);
typedef uint8_t from_image(const uint8_t *, size_t, const uint8_t *, size_t, const uint8_t *, size_t, const uint8_t *, size_t,
                           uint8_t *, size_t, size_t *);
after_reset cxlplan_proved_run, cxlplan_proved_words, cxlplan_proved_image;
from_image cxlplan_proved_run_from, cxlplan_proved_words_from, cxlplan_proved_image_from;
uint8_t cxlplan_proved_tree(const uint8_t *, size_t, uint8_t *, size_t, size_t *);
uint8_t cxlplan_proved_decoders(const uint8_t *, size_t, const uint8_t *, size_t, uint8_t *, size_t, size_t *);
uint8_t cxlplan_proved_breaches(const uint8_t *, size_t, const uint8_t *, size_t, const uint8_t *, size_t, uint8_t *, size_t, size_t *);
uint8_t cxlplan_proved_windows(const uint8_t *, size_t, const uint8_t *, size_t, uint8_t *, size_t, size_t *);
uint8_t cxlplan_proved_gen(uint32_t, uint8_t *, size_t, size_t *);
uint8_t cxlplan_proved_version(uint8_t *, size_t, size_t *);
uint8_t cxlplan_proved_session_open(const uint8_t *, size_t, const uint8_t *, size_t, struct cxlplan_session *, uint8_t *, size_t,
                                    size_t *);
uint8_t cxlplan_proved_session_open_from(const uint8_t *, size_t, const uint8_t *, size_t, const uint8_t *, size_t,
                                         struct cxlplan_session *, uint8_t *, size_t, size_t *);
uint8_t cxlplan_proved_session_act(struct cxlplan_session *, const uint8_t *, size_t, uint8_t *, size_t, size_t *);
uint8_t cxlplan_proved_session_words(struct cxlplan_session *, struct cxlplan_word *, size_t, size_t *);
uint8_t cxlplan_proved_session_image(struct cxlplan_session *, uint8_t *, size_t, size_t *);
void cxlplan_proved_session_close(struct cxlplan_session *);
uint8_t cxlplan_proved_session_down(struct cxlplan_session *, uint64_t, struct cxlplan_place *, struct cxlplan_refusal *);
uint8_t cxlplan_proved_session_up(struct cxlplan_session *, const uint8_t *, size_t, uint64_t, struct cxlplan_host_byte *,
                                  struct cxlplan_refusal *);
uint8_t cxlplan_proved_session_load(struct cxlplan_session *, uint64_t, uint8_t *, size_t, struct cxlplan_refusal *);
uint8_t cxlplan_proved_session_store(struct cxlplan_session *, uint64_t, const uint8_t *, size_t, struct cxlplan_refusal *);

/* Bytes to be read, and the room for an answer, as a caller passes them. */
struct bytes {
    const void *at;
    size_t len;
};
struct room {
    uint8_t *at;
    size_t len;
    size_t *written;
    size_t untold; /* the count, where the caller asks for none */
    uint8_t none;
};

/* Where no bytes are. */
static const uint8_t nothing[1];

/* No object has so many bytes, or lies there. */
static int is_no_object(const void *at, size_t len)
{
    return len > PTRDIFF_MAX || (!at && len) || (uintptr_t)at > UINTPTR_MAX - len;
}

static int overlap(const void *a, size_t a_len, const void *b, size_t b_len)
{
    return a_len && b_len && (uintptr_t)a < (uintptr_t)b + b_len && (uintptr_t)b < (uintptr_t)a + a_len;
}

/* Makes what is passed fit for a proved call, which takes no null pointer, and answers whether it is. */
static int is_fit(struct bytes *in, size_t count, struct room *room, void *out, size_t out_len, size_t *written)
{
    size_t told = written ? sizeof *written : 0;
    int fit = !is_no_object(out, out_len) && !overlap(out, out_len, written, told);

    room->at = out ? out : &room->none;
    room->len = out_len;
    room->written = written ? written : &room->untold;
    *room->written = 0;
    for (size_t i = 0; i < count; i++) {
        fit = fit && !is_no_object(in[i].at, in[i].len) && !overlap(in[i].at, in[i].len, out, out_len)
            && !overlap(in[i].at, in[i].len, written, told);
        if (!in[i].at)
            in[i].at = nothing;
    }
    return fit;
}

int cxlplan_route(const void *cedt, size_t cedt_len, uint64_t hpa, void *out, size_t out_len, size_t *written)
{
    struct bytes in[] = {{cedt, cedt_len}};
    struct room room;

    if (!is_fit(in, 1, &room, out, out_len, written))
        return CXLPLAN_USAGE;
    return cxlplan_proved_route(in[0].at, in[0].len, hpa, room.at, room.len, room.written);
}

int cxlplan_list(const void *cedt, size_t cedt_len, void *out, size_t out_len, size_t *written)
{
    struct bytes in[] = {{cedt, cedt_len}};
    struct room room;

    if (!is_fit(in, 1, &room, out, out_len, written))
        return CXLPLAN_USAGE;
    return cxlplan_proved_list(in[0].at, in[0].len, room.at, room.len, room.written);
}

int cxlplan_normal(const void *cedt, size_t cedt_len, void *out, size_t out_len, size_t *written)
{
    struct bytes in[] = {{cedt, cedt_len}};
    struct room room;

    if (!is_fit(in, 1, &room, out, out_len, written))
        return CXLPLAN_USAGE;
    return cxlplan_proved_normal(in[0].at, in[0].len, room.at, room.len, room.written);
}

int cxlplan_check(const void *cedt, size_t cedt_len, const void *topo, size_t topo_len, const void *image, size_t image_len,
                  void *out, size_t out_len, size_t *written)
{
    struct bytes in[] = {{cedt, cedt_len}, {topo, topo_len}, {image, image_len}};
    struct room room;

    if (!is_fit(in, 3, &room, out, out_len, written))
        return CXLPLAN_USAGE;
    return cxlplan_proved_check(in[0].at, in[0].len, in[1].at, in[1].len, in[2].at, in[2].len, room.at, room.len, room.written);
}

int cxlplan_plan(const void *cedt, size_t cedt_len, const void *topo, size_t topo_len, const void *line, size_t line_len,
                 void *out, size_t out_len, size_t *written)
{
    struct bytes in[] = {{cedt, cedt_len}, {topo, topo_len}, {line, line_len}};
    struct room room;

    if (!is_fit(in, 3, &room, out, out_len, written))
        return CXLPLAN_USAGE;
    return cxlplan_proved_plan(in[0].at, in[0].len, in[1].at, in[1].len, in[2].at, in[2].len, room.at, room.len, room.written);
}

/* Table, topology, image and script by one of two proved calls: where the image is null, by that on the registers after reset. */
static int over_script(after_reset *reset, from_image *with_image, struct bytes *in, void *out, size_t out_len, size_t *written)
{
    int has_image = in[2].at != NULL;
    struct room room;

    if (!is_fit(in, 4, &room, out, out_len, written))
        return CXLPLAN_USAGE;
    if (!has_image)
        return reset(in[0].at, in[0].len, in[1].at, in[1].len, in[3].at, in[3].len, room.at, room.len, room.written);
    return with_image(in[0].at, in[0].len, in[1].at, in[1].len, in[2].at, in[2].len, in[3].at, in[3].len,
                      room.at, room.len, room.written);
}

int cxlplan_run(const void *cedt, size_t cedt_len, const void *topo, size_t topo_len, const void *image, size_t image_len,
                const void *script, size_t script_len, void *out, size_t out_len, size_t *written)
{
    struct bytes in[] = {{cedt, cedt_len}, {topo, topo_len}, {image, image_len}, {script, script_len}};

    return over_script(cxlplan_proved_run, cxlplan_proved_run_from, in, out, out_len, written);
}

int cxlplan_words(const void *cedt, size_t cedt_len, const void *topo, size_t topo_len, const void *image, size_t image_len,
                  const void *script, size_t script_len, void *out, size_t out_len, size_t *written)
{
    struct bytes in[] = {{cedt, cedt_len}, {topo, topo_len}, {image, image_len}, {script, script_len}};

    return over_script(cxlplan_proved_words, cxlplan_proved_words_from, in, out, out_len, written);
}

int cxlplan_image(const void *cedt, size_t cedt_len, const void *topo, size_t topo_len, const void *image, size_t image_len,
                  const void *script, size_t script_len, void *out, size_t out_len, size_t *written)
{
    struct bytes in[] = {{cedt, cedt_len}, {topo, topo_len}, {image, image_len}, {script, script_len}};

    return over_script(cxlplan_proved_image, cxlplan_proved_image_from, in, out, out_len, written);
}

int cxlplan_tree(const void *topo, size_t topo_len, void *out, size_t out_len, size_t *written)
{
    struct bytes in[] = {{topo, topo_len}};
    struct room room;

    if (!is_fit(in, 1, &room, out, out_len, written))
        return CXLPLAN_USAGE;
    return cxlplan_proved_tree(in[0].at, in[0].len, room.at, room.len, room.written);
}

int cxlplan_decoders(const void *topo, size_t topo_len, const void *image, size_t image_len, void *out, size_t out_len,
                     size_t *written)
{
    struct bytes in[] = {{topo, topo_len}, {image, image_len}};
    struct room room;

    if (!is_fit(in, 2, &room, out, out_len, written))
        return CXLPLAN_USAGE;
    return cxlplan_proved_decoders(in[0].at, in[0].len, in[1].at, in[1].len, room.at, room.len, room.written);
}

int cxlplan_breaches(const void *cedt, size_t cedt_len, const void *topo, size_t topo_len, const void *image, size_t image_len,
                     void *out, size_t out_len, size_t *written)
{
    struct bytes in[] = {{cedt, cedt_len}, {topo, topo_len}, {image, image_len}};
    struct room room;

    if (!is_fit(in, 3, &room, out, out_len, written))
        return CXLPLAN_USAGE;
    return cxlplan_proved_breaches(in[0].at, in[0].len, in[1].at, in[1].len, in[2].at, in[2].len, room.at, room.len, room.written);
}

int cxlplan_windows(const void *cedt, size_t cedt_len, const void *topo, size_t topo_len, void *out, size_t out_len, size_t *written)
{
    struct bytes in[] = {{cedt, cedt_len}, {topo, topo_len}};
    struct room room;

    if (!is_fit(in, 2, &room, out, out_len, written))
        return CXLPLAN_USAGE;
    return cxlplan_proved_windows(in[0].at, in[0].len, in[1].at, in[1].len, room.at, room.len, room.written);
}

int cxlplan_gen(uint32_t number, void *out, size_t out_len, size_t *written)
{
    struct room room;

    if (!is_fit(NULL, 0, &room, out, out_len, written))
        return CXLPLAN_USAGE;
    return cxlplan_proved_gen(number, room.at, room.len, room.written);
}

int cxlplan_version(void *out, size_t out_len, size_t *written)
{
    struct room room;

    if (!is_fit(NULL, 0, &room, out, out_len, written))
        return CXLPLAN_USAGE;
    return cxlplan_proved_version(room.at, room.len, room.written);
}

/* A part of memory that a call on a session reads, or writes: then it overlaps no other. */
struct part {
    const void *at;
    size_t len, alignment;
    int is_written;
};

/* Whether all parts are objects, aligned, and apart. */
static int are_fit(const struct part *parts, size_t count)
{
    for (size_t i = 0; i < count; i++) {
        if (is_no_object(parts[i].at, parts[i].len) || (uintptr_t)parts[i].at % parts[i].alignment)
            return 0;
        for (size_t j = 0; j < i; j++)
            if ((parts[i].is_written || parts[j].is_written) && overlap(parts[i].at, parts[i].len, parts[j].at, parts[j].len))
                return 0;
    }
    return 1;
}

/* As is_fit, for a call on a session: nothing is written before all is found fit. */
static int is_fit_on(struct cxlplan_session *session, struct bytes *in, size_t count, struct room *room, void *out, size_t out_len,
                     size_t *written)
{
    struct part parts[6] = {{session, sizeof *session, sizeof(void *), 1},
                            {written, written ? sizeof *written : 0, sizeof *written, 1},
                            {out, out_len, 1, 1}};

    for (size_t i = 0; i < count; i++)
        parts[3 + i] = (struct part){in[i].at, in[i].len, 1, 0};
    if (!session || !are_fit(parts, 3 + count))
        return 0;
    room->at = out ? out : &room->none;
    room->len = out_len;
    room->written = written ? written : &room->untold;
    for (size_t i = 0; i < count; i++)
        if (!in[i].at)
            in[i].at = nothing;
    return 1;
}

int cxlplan_session_open(struct cxlplan_session *session, const void *cedt, size_t cedt_len, const void *topo, size_t topo_len,
                         const void *image, size_t image_len, void *out, size_t out_len, size_t *written)
{
    struct bytes in[] = {{cedt, cedt_len}, {topo, topo_len}, {image, image_len}};
    struct room room;

    if (!is_fit_on(session, in, 3, &room, out, out_len, written))
        return CXLPLAN_USAGE;
    if (!image)
        return cxlplan_proved_session_open(in[0].at, in[0].len, in[1].at, in[1].len, session, room.at, room.len, room.written);
    return cxlplan_proved_session_open_from(in[0].at, in[0].len, in[1].at, in[1].len, in[2].at, in[2].len, session, room.at, room.len,
                                            room.written);
}

int cxlplan_session_act(struct cxlplan_session *session, const void *lines, size_t lines_len, void *out, size_t out_len,
                        size_t *written)
{
    struct bytes in[] = {{lines, lines_len}};
    struct room room;

    if (!is_fit_on(session, in, 1, &room, out, out_len, written))
        return CXLPLAN_USAGE;
    return cxlplan_proved_session_act(session, in[0].at, in[0].len, room.at, room.len, room.written);
}

int cxlplan_session_words(struct cxlplan_session *session, struct cxlplan_word *rows, size_t rows_len, size_t *count)
{
    struct part parts[] = {{session, sizeof *session, sizeof(void *), 1},
                           {count, count ? sizeof *count : 0, sizeof *count, 1},
                           {rows, rows_len * sizeof *rows, sizeof rows->node, 1}};
    struct cxlplan_word none;
    size_t untold;

    if (!session || rows_len > PTRDIFF_MAX / sizeof *rows || !are_fit(parts, 3))
        return CXLPLAN_USAGE;
    return cxlplan_proved_session_words(session, rows ? rows : &none, rows_len, count ? count : &untold);
}

int cxlplan_session_image(struct cxlplan_session *session, void *out, size_t out_len, size_t *written)
{
    struct room room;

    if (!is_fit_on(session, NULL, 0, &room, out, out_len, written))
        return CXLPLAN_USAGE;
    return cxlplan_proved_session_image(session, room.at, room.len, room.written);
}

int cxlplan_session_close(struct cxlplan_session *session)
{
    struct part part = {session, sizeof *session, sizeof(void *), 1};

    if (!session || !are_fit(&part, 1))
        return CXLPLAN_USAGE;
    cxlplan_proved_session_close(session);
    return CXLPLAN_DONE;
}

/* Whether a session, its refusal, if that is asked for, and the parts of one command are fit. */
static int is_fit_for(struct cxlplan_session *session, struct cxlplan_refusal *refusal, struct part first, struct part second)
{
    struct part parts[] = {{session, sizeof *session, sizeof(void *), 1},
                           {refusal, refusal ? sizeof *refusal : 0, sizeof refusal->first, 1},
                           first, second};

    return session && are_fit(parts, 4);
}

int cxlplan_session_down(struct cxlplan_session *session, uint64_t hpa, struct cxlplan_place *place, struct cxlplan_refusal *refusal)
{
    struct part record = {place, sizeof *place, sizeof place->dpa, 1}, none = {NULL, 0, 1, 0};
    struct cxlplan_refusal untold;

    if (!is_fit_for(session, refusal, record, none))
        return CXLPLAN_USAGE;
    return cxlplan_proved_session_down(session, hpa, place, refusal ? refusal : &untold);
}

int cxlplan_session_up(struct cxlplan_session *session, const void *endpoint, size_t endpoint_len, uint64_t dpa,
                       struct cxlplan_host_byte *byte, struct cxlplan_refusal *refusal)
{
    struct part record = {byte, sizeof *byte, sizeof byte->hpa, 1}, name = {endpoint, endpoint_len, 1, 0};
    struct cxlplan_refusal untold;

    if (!is_fit_for(session, refusal, record, name))
        return CXLPLAN_USAGE;
    return cxlplan_proved_session_up(session, endpoint ? endpoint : nothing, endpoint_len, dpa, byte, refusal ? refusal : &untold);
}

int cxlplan_session_load(struct cxlplan_session *session, uint64_t hpa, void *bytes, size_t bytes_len, struct cxlplan_refusal *refusal)
{
    struct part room = {bytes, bytes_len, 1, 1}, none = {NULL, 0, 1, 0};
    struct cxlplan_refusal untold;
    uint8_t no_byte;

    if (!is_fit_for(session, refusal, room, none))
        return CXLPLAN_USAGE;
    return cxlplan_proved_session_load(session, hpa, bytes ? bytes : &no_byte, bytes_len, refusal ? refusal : &untold);
}

int cxlplan_session_store(struct cxlplan_session *session, uint64_t hpa, const void *bytes, size_t bytes_len,
                          struct cxlplan_refusal *refusal)
{
    struct part from = {bytes, bytes_len, 1, 0}, none = {NULL, 0, 1, 0};
    struct cxlplan_refusal untold;

    if (!is_fit_for(session, refusal, from, none))
        return CXLPLAN_USAGE;
    return cxlplan_proved_session_store(session, hpa, bytes ? bytes : nothing, bytes_len, refusal ? refusal : &untold);
}
