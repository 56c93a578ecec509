/* The least work of the bench's item `paragraphs`: a program that knows the script of bench/inputs.py, and writes the same answers and the same
   DVI file as boxglue, byte for byte, at each tolerance.

   It is a limit, not a typesetter: it expects one font, the commands and lengths of this script, and parameters at their first values.
   It checks nothing. A node has 16 bytes; each is written once, and moved once to its line.
   What a legal place needs is summed while the text is read.

       paragraphs SCRIPT METRICS OUT > ANSWERS

   bench/floor.py builds it, compares files and answers and counts instructions. */
#include <string.h>

#include "floor.h"

#define PT 65536
#define NO_SPACE_BEFORE (-1000 * PT)
#define HSIZE (345 * PT)
#define SPLIT_TO (550 * PT)

enum { NODES = 65536, MARKS = 9000, ENTRIES = 40000, LINES = 2000, MOVED = 140000, ITEMS = 70000, MOVES = 40000, AMOUNTS = 64, CLASSES = 4 };
enum { BASELINESKIP = 12 * PT, LINESKIP = 1 * PT, SPLITTOPSKIP = 10 * PT };
enum { LINEPENALTY = 10, ADJDEMERITS = 10000, CLUB = 150, WIDOW = 150, PRETOLERANCE = 100 };
enum { VERY_LOOSE, LOOSE, DECENT, TIGHT, WORST = 10000, WORST_DEMERITS = 100000000 };
enum { BOP = 139, EOP, PUSH, POP, RIGHT1, W0 = 147, W1, X0 = 152, X1, DOWN1 = 157, FONT0 = 171, POST = 248, POST_POST };

/* Horizontal items, their places, and how lines are found. */

typedef struct {
    uint8_t kind, code;
    int32_t width, height_or_stretch, depth_or_shrink;
} Node;
enum { GLYPH, KERN, GLUE };

/* A legal place: the sums before it; those before the line that begins after it, and where both are; the size of what comes up to the next place. */
typedef struct {
    int64_t width, width_after;
    int32_t stretch, shrink, stretch_after, shrink_after, at, after, height, depth;
} Mark;

/* The least cost of the lines up to a place, for a class of the next line. */
typedef struct {
    int64_t demerits, overhang;
    int32_t entry;
} Cost;

typedef struct {
    int32_t place;
    int64_t width_with_overhang;
    Cost before[CLASSES];
} Live;

typedef struct {
    int32_t from, place;
    int64_t demerits, overhang;
    int class;
} Entry;

/* A line that is tried. Once it is too short, the lines from all later places are; once it is too long, later ends need not be tried. */
typedef struct {
    int badness, class, is_short, is_long;
    int64_t overhang, least_width;
} Trial;

typedef struct {
    int is_last, most, limit;
} Pass;

static Font font;
static Node nodes[NODES];
static Mark marks[MARKS];
static Entry entries[ENTRIES];
static Live lives[MARKS];
static int node_count, place_count, entry_count, live_first, live_end, tolerance;
static Mark sums;

/* Vertical items, and pages. */

typedef struct {
    Node *nodes;
    int count, sign;
    int32_t height, depth;
    int64_t numerator, denominator;
} Line;

typedef struct {
    int kind;
    int32_t amount;
    Line *line;
} Item;
enum { PENALTY, SKIP, BOX };

typedef struct {
    Item *items;
    int count;
    int64_t height;
    int32_t depth;
} List;

/* An instruction that comes before so many characters of the page. Whether a movement comes again is written back at its last like. */
typedef struct {
    int32_t before, amount;
    uint8_t code, comes_again;
} Move;

static Line lines[LINES], *line_end;
static Node moved[MOVED], *moved_end;
static Item items[ITEMS], page_items[MARKS];
static List rest, page = {page_items, 0, 0, 0};
static int32_t previous_depth;
static Move moves[MOVES];
static uint8_t codes[MOVES];
static int move_count, code_count, amount_count, last_move[AMOUNTS], page_count;
static int32_t amounts[AMOUNTS], last_page = -1;
static int64_t tallest;
static char *answers;
static uint8_t *dvi, *dvi_end;

/* Answers. */

static void say(const char *text, size_t length)
{
    memcpy(answers, text, length);
    answers += length;
}
#define SAY(text) say(text, sizeof(text) - 1)

static void say_number(uint32_t number)
{
    char digits[10];
    int from = 10;
    do
        digits[--from] = (char)('0' + number % 10);
    while (number /= 10);
    say(digits + from, (size_t)(10 - from));
}

/* A dimension, as TeX prints it. */
static void say_dimension(int32_t amount)
{
    int32_t part = 10 * (amount % PT) + 5, unit = 10;
    say_number((uint32_t)amount / PT);
    SAY(".");
    do {
        if (unit > PT)
            part += PT / 2 - 50000;
        *answers++ = (char)('0' + part / PT);
        part = 10 * (part % PT);
        unit *= 10;
    } while (part > unit);
    SAY("pt");
}

static void say_size(int64_t height, int32_t depth)
{
    SAY(" 345.0pt ");
    say_dimension((int32_t)height);
    SAY(" ");
    say_dimension(depth);
}

/* Text. */

/* What comes up to a place is measured. */
static void end_segment(void)
{
    marks[place_count].height = sums.height;
    marks[place_count].depth = sums.depth;
    sums.height = sums.depth = 0;
}

static void add_space(void)
{
    end_segment();
    Mark *mark = &marks[++place_count];
    mark->width = sums.width;
    mark->stretch = sums.stretch;
    mark->shrink = sums.shrink;
    mark->at = node_count;
    nodes[node_count++] = (Node){GLUE, 0, font.space[0], font.space[1], font.space[2]};
    mark->width_after = sums.width += font.space[0];
    mark->stretch_after = sums.stretch += font.space[1];
    mark->shrink_after = sums.shrink += font.space[2];
    mark->after = node_count;
}

/* A word from its first character; returns its end. */
static const uint8_t *add_word(const uint8_t *text, const uint8_t *end)
{
    uint8_t code = *text++;
    for (;;) {
        uint8_t next = text < end ? *text : ' ';
        uint16_t pair = next == ' ' ? NO_STEP : font.pair[code][next];
        if (pair >= LIGATURE) {
            code = (uint8_t)pair;
            text++;
            continue;
        }
        int32_t width = font.width[code], height = font.height[code], depth = font.depth[code];
        nodes[node_count++] = (Node){GLYPH, code, width, height, depth};
        sums.width += width;
        if (height > sums.height)
            sums.height = height;
        if (depth > sums.depth)
            sums.depth = depth;
        if (pair) {
            nodes[node_count++] = (Node){KERN, 0, font.kern[pair - 1], 0, 0};
            sums.width += font.kern[pair - 1];
        }
        if (next == ' ')
            return text;
        code = next;
        text++;
    }
}

static void add_text(const uint8_t *text, const uint8_t *end)
{
    int before = node_count;
    while (text < end) {
        if (*text != ' ') {
            text = add_word(text, end);
            continue;
        }
        while (text < end && *text == ' ')
            text++;
        add_space();
    }
    SAY("added ");
    say_number((uint32_t)(node_count - before));
    SAY(" missing 0\n");
}

/* Breaks. */

static int badness(int64_t amount, int32_t total)
{
    if (amount == 0)
        return 0;
    if (total <= 0)
        return WORST;
    int64_t ratio = amount <= 7230584 ? (uint32_t)(amount * 297) / (uint32_t)total : total >= 1663497 ? amount / (total / 297) : amount;
    return ratio > 1290 ? WORST : (int)((ratio * ratio * ratio + (1 << 17)) >> 18);
}

static int is_better(int64_t overhang, int64_t demerits, const Cost *than)
{
    return overhang < than->overhang || (overhang == than->overhang && demerits < than->demerits);
}

/* Of equal offers the last one wins. */
static void offer(Cost *best, const Cost *before, int64_t overhang, int64_t demerits)
{
    overhang += before->overhang;
    demerits += before->demerits;
    if (best->entry < 0 || !(best->overhang < overhang || (best->overhang == overhang && best->demerits < demerits)))
        *best = (Cost){demerits, overhang, before->entry};
}

static Trial trial(const Pass *pass, const Mark *from, const Mark *to, int is_end)
{
    int64_t width = to->width - from->width_after, left = HSIZE - width;
    int32_t stretch = to->stretch - from->stretch_after, shrink = to->shrink - from->shrink_after;
    Trial it = {0, DECENT, 0, 0, 0, width - shrink};
    if (left > 0 && is_end)
        return it;
    if (left > 0) {
        it.badness = badness(left, stretch);
        it.class = it.badness > 99 ? VERY_LOOSE : it.badness > 12 ? LOOSE : DECENT;
        it.is_short = it.badness > 12 && it.badness > pass->limit;
    } else if (-left > shrink) {
        it = (Trial){WORST, TIGHT, 0, !pass->is_last, -left - shrink, width - shrink};
    } else {
        it.badness = badness(-left, shrink);
        it.class = it.badness > 12 ? TIGHT : DECENT;
    }
    return it;
}

/* Tries the line from a live place; returns the trial, in which a line is too long too if one that ends before it hangs over by less. */
static Trial try_from(const Pass *pass, Live *live, const Mark *to, int is_end, Cost *row)
{
    Trial it = trial(pass, &marks[live->place], to, is_end);
    if (pass->is_last) {
        it.is_long = live->width_with_overhang < it.least_width;
        if (it.overhang > 0 && live->width_with_overhang == INT64_MAX)
            live->width_with_overhang = it.least_width;
    }
    if (!it.is_long && (pass->is_last || it.badness <= pass->most)) {
        int64_t base = LINEPENALTY + it.badness;
        offer(&row[it.class], &live->before[it.class], it.overhang, base >= WORST ? WORST_DEMERITS : base * base);
    }
    return it;
}

/* Keeps what can begin a line that ends at the place or after it, and offers each line to the row of the place. */
static void try_place(const Pass *pass, int place, Cost *row)
{
    const Mark *to = marks + place;
    Live *first = lives + live_first, *end = lives + live_end, *kept = first, *it = first;
    int is_end = place == place_count, is_short = 0;
    while (it < end && !is_short) {
        Trial done = try_from(pass, it, to, is_end, row);
        is_short = done.is_short;
        if (done.is_long && it == first) {
            first++;
            kept++;
        } else if (!done.is_long) {
            if (kept < it)
                *kept = *it;
            kept++;
        }
        it++;
    }
    if (pass->is_last || pass->most >= WORST)
        for (const Live *late = it; late < end; late++)
            offer(&row[VERY_LOOSE], &late->before[VERY_LOOSE], 0, WORST_DEMERITS);
    if (kept < it)
        memmove(kept, it, (size_t)(end - it) * sizeof(Live));
    live_first = (int)(first - lives);
    live_end = (int)(end - (it - kept) - lives);
}

/* Makes the entries of a place, and the live place of those. */
static void add_live(int place, const Cost *row)
{
    Live *live = &lives[live_end];
    int is_made = 0;
    live->place = place;
    live->width_with_overhang = INT64_MAX;
    for (int class = 0; class < CLASSES; class++) {
        if (row[class].entry < 0)
            continue;
        entries[entry_count] = (Entry){row[class].entry, place, row[class].demerits, row[class].overhang, class};
        for (int next = 0; next < CLASSES; next++) {
            int64_t demerits = row[class].demerits + (class + 1 < next || next + 1 < class ? ADJDEMERITS : 0);
            if (!is_made || is_better(row[class].overhang, demerits, &live->before[next]))
                live->before[next] = (Cost){demerits, row[class].overhang, entry_count};
        }
        entry_count++;
        is_made = 1;
    }
    live_end += is_made;
}

/* The best of the entries of the last place, or 0. */
static int best_entry(void)
{
    int best = 0;
    for (int i = entry_count - 1; i > 0 && entries[i].place == place_count; i--) {
        const Entry *it = &entries[i], *than = &entries[best];
        Cost cost = {than->demerits, than->overhang, 0};
        int is_equal = it->overhang == than->overhang && it->demerits == than->demerits;
        if (!best || is_better(it->overhang, it->demerits, &cost) || (is_equal && entries[it->from].place >= entries[than->from].place))
            best = i;
    }
    return best;
}

static int run_pass(int is_last, int most)
{
    Pass pass = {is_last, most, is_last || most >= WORST ? WORST - 1 : most};
    entries[0] = (Entry){-1, 0, 0, 0, DECENT};
    entry_count = 1;
    lives[0] = (Live){0, INT64_MAX, {{ADJDEMERITS, 0, 0}, {0, 0, 0}, {0, 0, 0}, {0, 0, 0}}};
    live_first = 0;
    live_end = 1;
    for (int place = 1; place <= place_count && live_first < live_end; place++) {
        Cost row[CLASSES];
        for (int class = 0; class < CLASSES; class++)
            row[class].entry = -1;
        try_place(&pass, place, row);
        if (place == place_count)
            live_first = live_end = 0;
        add_live(place, row);
    }
    return best_entry();
}

/* Lines. */

static void add_item(int kind, int32_t amount, Line *line)
{
    rest.items[rest.count++] = (Item){kind, amount, line};
}

/* Sets the glue of a line. In the last one parfillskip stretches. */
static void set_glue(Line *line, const Mark *from, const Mark *to, int is_last)
{
    int64_t left = HSIZE - (to->width - from->width_after);
    int32_t stretch = to->stretch - from->stretch_after, shrink = to->shrink - from->shrink_after;
    line->sign = left > 0 && !is_last && stretch ? 1 : left < 0 && shrink ? -1 : 0;
    line->numerator = line->sign > 0 ? left : -left > shrink ? 1 : -left;
    line->denominator = line->sign > 0 ? stretch : -left > shrink ? 1 : shrink;
}

static Line *make_line(int from, int to)
{
    Line *line = line_end++;
    int is_last = to == place_count, begin = marks[from].after;
    line->height = line->depth = 0;
    for (const Mark *it = &marks[from]; it < &marks[to]; it++) {
        line->height = it->height > line->height ? it->height : line->height;
        line->depth = it->depth > line->depth ? it->depth : line->depth;
    }
    line->nodes = moved_end;
    line->count = marks[to].at - begin;
    memcpy(moved_end, nodes + begin, (size_t)line->count * sizeof(Node));
    moved_end += line->count;
    set_glue(line, &marks[from], &marks[to], is_last);
    return line;
}

static void append_line(Line *line, int32_t penalty)
{
    if (previous_depth > NO_SPACE_BEFORE) {
        int32_t skip = BASELINESKIP - previous_depth - line->height;
        add_item(SKIP, skip < 0 ? LINESKIP : skip, NULL);
    }
    add_item(BOX, 0, line);
    previous_depth = line->depth;
    if (penalty)
        add_item(PENALTY, penalty, NULL);
}

static void append_lines(int entry)
{
    int ends[LINES], count = 0, from = 0;
    for (int i = entry; i > 0; i = entries[i].from)
        ends[count++] = entries[i].place;
    SAY("paragraph lines ");
    say_number((uint32_t)count);
    for (int i = count - 1; i >= 0; i--) {
        int32_t penalty = (i == count - 1 ? CLUB : 0) + (i == 1 ? WIDOW : 0);
        append_line(make_line(from, ends[i]), i ? penalty : 0);
        from = ends[i];
    }
}

static void begin_paragraph(void)
{
    node_count = place_count = 0;
    sums = marks[0] = (Mark){0, 0, 0, 0, 0, 0, 0, 0, 0, 0};
}

static void end_paragraph(void)
{
    end_segment();
    sums.at = node_count;
    marks[++place_count] = sums;
    int pass = 1, entry = run_pass(0, PRETOLERANCE);
    if (!entry && ++pass)
        entry = run_pass(0, tolerance);
    if (!entry && ++pass)
        entry = run_pass(1, 0);
    append_lines(entry);
    SAY(" pass ");
    say_number((uint32_t)pass);
    SAY(" overhang ");
    say_number((uint32_t)entries[entry].overhang);
    SAY(" demerits ");
    say_number((uint32_t)entries[entry].demerits);
    SAY("\n");
    begin_paragraph();
}

/* Pages. */

static void measure(List *list)
{
    int64_t size = 0;
    list->depth = 0;
    for (const Item *it = list->items; it < list->items + list->count; it++)
        if (it->kind != PENALTY) {
            size += it->kind == BOX ? it->line->height + it->line->depth : it->amount;
            list->depth = it->kind == BOX ? it->line->depth : 0;
        }
    list->height = size - list->depth;
}

/* The front goes to the page, as many items as are not too high: no glue stretches, so the last place wins. */
static void split(void)
{
    int64_t size = 0, natural = 0;
    int32_t depth = 0;
    int front = 0, from;
    for (int i = 0; i < rest.count && size - depth <= SPLIT_TO; i++) {
        const Item *it = &rest.items[i];
        if (it->kind == PENALTY || (it->kind == SKIP && i && it[-1].kind == BOX)) {
            front = i;
            natural = size - depth;
            page.depth = depth;
        }
        if (it->kind == BOX)
            size += it->line->height + (depth = it->line->depth);
        else if (it->kind == SKIP)
            size += it->amount, depth = 0;
    }
    page.count = front;
    page.height = SPLIT_TO;
    memcpy(page.items, rest.items, (size_t)front * sizeof(Item));
    for (from = front; rest.items[from].kind != BOX; from++)
        continue;
    int32_t skip = SPLITTOPSKIP - rest.items[from].line->height;
    rest.count -= from - 1;
    rest.items += from - 1;
    rest.items[0] = (Item){SKIP, skip < 0 ? 0 : skip, NULL};
    measure(&rest);
    SAY("split");
    say_size(page.height, page.depth);
    SAY(" badness ");
    say_number(natural == SPLIT_TO ? 0 : WORST);
    SAY(" rest");
    say_size(rest.height, rest.depth);
    SAY("\n");
}

static void add_move(uint8_t code, int32_t amount)
{
    moves[move_count++] = (Move){code_count, amount, code, 0};
}

static void move_right(int32_t amount)
{
    int i = 0;
    while (i < amount_count && amounts[i] != amount)
        i++;
    if (i == amount_count)
        amounts[amount_count++] = amount;
    else
        moves[last_move[i]].comes_again = 1;
    last_move[i] = move_count;
    add_move(RIGHT1, amount);
}

/* The share of the glue before a place of a line: a quotient, rounded half away from zero. */
static int64_t share(const Line *line, int64_t total)
{
    int64_t twice = 2 * line->numerator * total;
    return (twice < 0 ? twice - line->denominator : twice + line->denominator) / (2 * line->denominator);
}

/* Characters that follow each other; returns the first node that is none. */
static const Node *draw_run(const Node *it, const Node *end, int32_t *to)
{
    uint8_t *code = codes + code_count;
    int32_t width = 0;
    do {
        *code++ = it->code;
        width += it->width;
        it++;
    } while (it < end && it->kind == GLYPH);
    code_count = (int)(code - codes);
    *to += width;
    return it;
}

static void draw_line(const Line *line, int32_t baseline, int *is_font_set)
{
    const Node *it = line->nodes, *end = it + line->count;
    int32_t to = 0, at = 0;
    int64_t fixed = 0, total = 0;
    int is_first = 1;
    add_move(PUSH, 0);
    amount_count = 0;
    while (it < end) {
        if (it->kind == GLYPH) {
            if (to != at)
                move_right(to - at);
            if (is_first)
                add_move(DOWN1, baseline);
            if (!*is_font_set)
                add_move(FONT0, 0);
            is_first = 0;
            *is_font_set = 1;
            at = to;
            it = draw_run(it, end, &to);
            fixed += to - at;
            at = to;
            continue;
        }
        fixed += it->width;
        if (it->kind == KERN)
            to += it->width;
        else {
            total += line->sign > 0 ? it->height_or_stretch : line->sign < 0 ? -it->depth_or_shrink : 0;
            to = (int32_t)(line->sign ? fixed + share(line, total) : fixed);
        }
        it++;
    }
    add_move(POP, 0);
}

/* Writes the bytes of a number, the highest first. */
static uint8_t *put(uint8_t *to, int32_t number, int count)
{
    for (int shift = 8 * (count - 1); shift >= 0; shift -= 8)
        *to++ = (uint8_t)((uint32_t)number >> shift);
    return to;
}

/* Writes an instruction with as few bytes of operand as its number needs. */
static uint8_t *put_shortest(uint8_t *to, int code, int32_t number)
{
    int count = number == (int8_t)number ? 1 : number == (int16_t)number ? 2 : number >= -0x800000 && number < 0x800000 ? 3 : 4;
    *to++ = (uint8_t)(code + count - 1);
    return put(to, number, count);
}

/* Writes a movement to the right: by the register that has its amount, or else, if it comes again, into the one that was not used last. */
static uint8_t *put_right(uint8_t *to, const Move *move, int64_t *registers, int *last)
{
    if (registers[0] == move->amount || registers[1] == move->amount) {
        *last = registers[0] != move->amount;
        *to = *last ? X0 : W0;
        return to + 1;
    }
    if (!move->comes_again)
        return put_shortest(to, RIGHT1, move->amount);
    *last = !*last;
    registers[*last] = move->amount;
    return put_shortest(to, *last ? X1 : W1, move->amount);
}

static uint8_t *put_moves(uint8_t *to)
{
    int64_t registers[2] = {INT64_MAX, INT64_MAX};
    const uint8_t *code = codes;
    int last = 1;
    for (const Move *it = moves, *end = moves + move_count; it < end; it++) {
        for (const uint8_t *next = codes + it->before; code < next;)
            *to++ = *code++;
        if (it->code == RIGHT1)
            to = put_right(to, it, registers, &last);
        else if (it->code == DOWN1)
            to = put_shortest(to, DOWN1, it->amount);
        else
            *to++ = it->code;
        if (it->code == PUSH) {
            registers[0] = registers[1] = INT64_MAX;
            last = 1;
        }
    }
    return to;
}

static void put_preamble(void)
{
    static const uint8_t bytes[] = "\xf7\2\1\x83\x92\xc0\x1c\x3b\0\0\0\0\3\xe8";
    memcpy(dvi_end, bytes, sizeof bytes);
    dvi_end += sizeof bytes;
}

static void put_font(void)
{
    static const char bytes[] = "\xf3\0\x4b\xf1\x60\x79\0\x0a\0\0\0\x0a\0\0\0\5cmr10";
    memcpy(dvi_end, bytes, sizeof bytes - 1);
    dvi_end += sizeof bytes - 1;
}

static void ship(const List *list)
{
    int32_t position = 0;
    int is_font_set = 0;
    if (!page_count)
        put_font();
    ptrdiff_t start = dvi_end - dvi;
    *dvi_end++ = BOP;
    memset(dvi_end, 0, 40);
    dvi_end += 40;
    dvi_end = put(dvi_end, last_page, 4);
    last_page = (int32_t)start;
    page_count++;
    move_count = code_count = 0;
    for (const Item *it = list->items; it < list->items + list->count; it++) {
        if (it->kind == BOX) {
            draw_line(it->line, position + it->line->height, &is_font_set);
            position += it->line->height + it->line->depth;
        } else if (it->kind == SKIP)
            position += it->amount;
    }
    dvi_end = put_moves(dvi_end);
    *dvi_end++ = EOP;
    if (list->height + list->depth > tallest)
        tallest = list->height + list->depth;
    SAY("shipped ");
    say_number((uint32_t)page_count);
    SAY("\n");
}

static void put_postamble(void)
{
    int32_t post = (int32_t)(dvi_end - dvi);
    *dvi_end++ = POST;
    dvi_end = put(dvi_end, last_page, 4);
    memcpy(dvi_end, dvi + 2, 12);
    dvi_end = put(dvi_end + 12, (int32_t)tallest, 4);
    dvi_end = put(dvi_end, HSIZE, 4);
    dvi_end = put(dvi_end, 1, 2);
    dvi_end = put(dvi_end, page_count, 2);
    put_font();
    *dvi_end++ = POST_POST;
    dvi_end = put(dvi_end, post, 4);
    *dvi_end++ = 2;
    int fill = 4 + (int)(-(dvi_end - dvi) & 3);
    memset(dvi_end, 223, (size_t)fill);
    dvi_end += fill;
    SAY("end: pages ");
    say_number((uint32_t)page_count);
    SAY(" bytes ");
    say_number((uint32_t)(dvi_end - dvi));
    SAY("\n");
}

/* The script. */

static void begin_box(void)
{
    rest = (List){items, 0, 0, 0};
    line_end = lines;
    moved_end = moved;
    previous_depth = NO_SPACE_BEFORE;
}

static void end_list(void)
{
    if (node_count) {
        end_paragraph();
        return;
    }
    measure(&rest);
    SAY("packed");
    say_size(rest.height, rest.depth);
    SAY(" badness 0\n");
}

static void run_line(const uint8_t *line, const uint8_t *end, int number)
{
    static const char set_tolerance[] = "set tolerance ";
    say_number((uint32_t)number);
    SAY(": ");
    if (line[0] == 't')
        add_text(line + 5, end);
    else if (line[0] == 'e')
        end_list();
    else if (line[0] == 'v' && line[1] == 's')
        split();
    else if (line[0] == 's' && line[1] == 'h')
        ship(line[5] == '1' ? &page : &rest);
    else {
        if (line[0] == 'v')
            begin_box();
        else if (!memcmp(line, set_tolerance, sizeof set_tolerance - 1))
            tolerance = atoi((const char *)line + sizeof set_tolerance - 1);
        SAY("ok\n");
    }
}

static int is_written(FILE *file, const void *from, const void *to)
{
    size_t length = (size_t)((const char *)to - (const char *)from);
    return file && fwrite(from, 1, length, file) == length && !fflush(file);
}

int main(int count, char **words)
{
    if (count != 4)
        return 2;
    File script = read_file(words[1]);
    font = read_font(words[2]);
    char *said = answers = malloc(MOST_BYTES);
    dvi = dvi_end = malloc(MOST_BYTES);
    if (!said || !dvi)
        return 2;
    put_preamble();
    begin_paragraph();
    int number = 0;
    for (const uint8_t *line = script.bytes, *end = line + script.length; line < end;) {
        const uint8_t *feed = memchr(line, '\n', (size_t)(end - line));
        run_line(line, feed, ++number);
        line = feed + 1;
    }
    put_postamble();
    FILE *out = fopen(words[3], "wb");
    return !(is_written(stdout, said, answers) && is_written(out, dvi, dvi_end) && !fclose(out));
}
