/* Refusals: each request for memory is refused in turn, and each code comes where it should. */
#include "trials.h"

static const char document[] = "= Title <t>\nA *strong* word, `raw`, @t and https://typst.app.\n- item\n  + nested\n"
    "/ term: ```rust fn``` and ```\n one\n  two\n ```\n#let f(x, y: 1) = { x + y * 2 }\n"
    "#f(1, y: (2, 3))[content $a_1^2 + sin(x)/2$]\n#(a, (b, c)) => [#a]\n#let x = (1 +\n*open\n";
#define LENGTH (sizeof document - 1)
#define TEXT ((const uint8_t *)document)

/* What a call is given and where it puts what it reports. */
typedef struct place {
    typst_source *source, *given;
    typst_node nodes[1024];
    typst_remark remarks[64];
    uint8_t bytes[4096];
    size_t told;
    typst_said said;
    typst_sizes sizes;
    typst_stretch stretch;
} place;

static uint32_t call_new(place *p) { return typst_source_new(1, TEXT, LENGTH, &p->given); }
static uint32_t call_clone(place *p) { return typst_source_clone(p->source, &p->given); }
static uint32_t call_edit(place *p) { return typst_source_edit(p->source, 14, 15, (const uint8_t *)"xy*", 3, &p->stretch); }
static uint32_t call_replace(place *p) { return typst_source_replace(p->source, TEXT + 12, LENGTH - 12, &p->stretch); }
static uint32_t call_sizes(place *p) { return typst_source_sizes(p->source, &p->sizes); }
static uint32_t call_nodes(place *p) { return typst_source_nodes(p->source, p->nodes, 1024, &p->told); }
static uint32_t call_nodes_in(place *p) { return typst_source_nodes_in(p->source, 20, 40, p->nodes, 1024, &p->told); }
static uint32_t call_remarks(place *p) { return typst_source_remarks(p->source, p->remarks, 64, p->bytes, 4096, &p->said); }
static uint32_t call_parse(place *p) { return typst_parse(TYPST_MARKUP, TEXT, LENGTH, p->nodes, 1024, &p->told); }
static uint32_t call_code(place *p) { return typst_parse(TYPST_CODE, TEXT + 150, LENGTH - 150, p->nodes, 1024, &p->told); }
static uint32_t call_math(place *p) { return typst_parse(TYPST_MATH, TEXT, LENGTH, p->nodes, 1024, &p->told); }
static uint32_t call_all(place *p)
{
    return typst_parse_all(TYPST_CODE, TEXT + 150, LENGTH - 150, p->nodes, 1024, p->remarks, 64, p->bytes, 4096, &p->sizes);
}

static uint32_t call_html(place *p) { return typst_highlight_html(TEXT, LENGTH, p->bytes, 4096, &p->told); }

static const struct {
    const char *name;
    uint32_t (*make)(place *);
} calls[] = {{"new", call_new}, {"clone", call_clone}, {"edit", call_edit}, {"replace", call_replace}, {"sizes", call_sizes},
    {"nodes", call_nodes}, {"nodes_in", call_nodes_in}, {"remarks", call_remarks}, {"parse", call_parse},
    {"parse code", call_code}, {"parse math", call_math}, {"parse all", call_all}, {"html", call_html}};

/* Makes a call with some requests refused: whether that went as it should. `made_all` says whether none was. */
static int is_refused_well(size_t which, unsigned long first, unsigned long last, int *made_all)
{
    static place p;
    whole before, after;
    uint32_t code;
    long used;
    int is_right;

    memset(&p, 0, sizeof p);
    p.source = made(TEXT, LENGTH);
    before = read_whole(p.source);
    used = blocks();
    refuse(first, last);
    code = calls[which].make(&p);
    *made_all = allow() < first;
    if (p.given != NULL)
        typst_source_free(p.given);
    is_right = *made_all ? code == TYPST_OK : code == TYPST_OK || code == TYPST_NO_MEMORY;
    if (code == TYPST_NO_MEMORY) {
        after = read_whole(p.source);
        is_right = is_right && p.given == NULL && is_same(&before, &after, 1);
        free_whole(&after);
        is_right = is_right && blocks() == used;
    }
    free_whole(&before);
    typst_source_free(p.source);
    return is_right;
}

void try_refusals(tally *tally)
{
    size_t which;
    unsigned long number;
    int made_all, made_rest;
    long used = blocks();

    for (which = 0; which < sizeof calls / sizeof *calls; which++) {
        for (number = 1, made_all = 0; !made_all; number++) {
            count(tally, is_refused_well(which, number, number, &made_all), calls[which].name);
            count(tally, is_refused_well(which, number, -1UL, &made_rest), calls[which].name);
        }
        printf("  typst_source_ %s: %lu requests\n", calls[which].name, number - 2);
    }
    count(tally, blocks() == used, "blocks are left");
}

/* Whether a source is as it was, and a code is the one that is wanted. */
static int is_kept(typst_source *source, const whole *before, uint32_t code, uint32_t wanted)
{
    whole after = read_whole(source);
    int is_right = code == wanted && is_same(before, &after, 1);

    free_whole(&after);
    return is_right;
}

void try_codes(tally *tally)
{
    static const uint8_t bad[] = {'a', 0xff, 'b'}, lone[] = {0xed, 0xa0, 0x80}, text[] = "a\xc3\xa9 *b*";
    typst_source *source = made(text, sizeof text - 1), *none = NULL;
    whole before = read_whole(source);
    typst_stretch stretch = {7, 7};
    typst_position position = {7, 7, 7, 7};
    typst_sizes sizes = {7, 7, 7, 7};
    size_t told = 7;

#define KEPT(call, wanted) count(tally, is_kept(source, &before, (call), (wanted)), #call)
    KEPT(typst_source_new(0, text, 3, &none), TYPST_BAD_ARGUMENT);
    KEPT(typst_source_new(1, bad, 3, &none), TYPST_NOT_UTF8);
    KEPT(typst_source_new(1, lone, 3, &none), TYPST_NOT_UTF8);
    KEPT(typst_source_new(1, text, 2, &none), TYPST_NOT_UTF8);
    KEPT(typst_parse(3, text, 3, before.nodes, 0, &told), TYPST_BAD_ARGUMENT);
    KEPT(typst_parse(TYPST_CODE, bad, 3, before.nodes, 0, &told), TYPST_NOT_UTF8);
    KEPT(typst_parse_all(3, text, 3, before.nodes, 0, before.remarks, 0, before.messages, 0, &sizes), TYPST_BAD_ARGUMENT);
    KEPT(typst_parse_all(TYPST_MATH, bad, 3, before.nodes, 0, before.remarks, 0, before.messages, 0, &sizes), TYPST_NOT_UTF8);
    KEPT(typst_source_edit(source, 2, 3, text, 1, &stretch), TYPST_BAD_RANGE);
    KEPT(typst_source_edit(source, 1, 2, text, 1, &stretch), TYPST_BAD_RANGE);
    KEPT(typst_source_edit(source, 3, 1, text, 1, &stretch), TYPST_BAD_RANGE);
    KEPT(typst_source_edit(source, 0, 8, text, 1, &stretch), TYPST_BAD_RANGE);
    KEPT(typst_source_edit(source, (size_t)-1, (size_t)-1, text, 1, &stretch), TYPST_BAD_RANGE);
    KEPT(typst_source_edit(source, 0, 1, bad, 3, &stretch), TYPST_NOT_UTF8);
    KEPT(typst_source_replace(source, bad, 3, &stretch), TYPST_NOT_UTF8);
    KEPT(typst_highlight_html(bad, 3, before.text, 0, &told), TYPST_NOT_UTF8);
    KEPT(typst_source_position(source, 2, &position), TYPST_BAD_RANGE);
    KEPT(typst_source_position(source, 8, &position), TYPST_BAD_RANGE);
    KEPT(typst_source_byte(source, 1, 0, TYPST_BYTES, &told), TYPST_BAD_RANGE);
    KEPT(typst_source_byte(source, 0, 2, TYPST_BYTES, &told), TYPST_BAD_RANGE);
    KEPT(typst_source_byte(source, 0, 0, 3, &told), TYPST_BAD_ARGUMENT);
#undef KEPT
    count(tally, none == NULL && stretch.start == 7 && stretch.end == 7 && told == 7 && sizes.text == 7 && position.utf16 == 7,
        "a refused call told something");
    free_whole(&before);
    typst_source_free(source);
}
