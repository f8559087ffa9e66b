/* Translator, checker, lister, runner and comparer in plain C, for comparing times. Names are two bytes as a number, the first character the low one. */
#include "bench.h"

enum { BLANK, LABEL, DECLARED, ACTS };
enum { SET = 1, SET_WITH, IC, DC, BR, CL, RT, E, H, OE, MA, MR, SL, PR };
enum { P = 5, A, D, VI, VM, ER, O1, O3 = 13, MV, EF, I1, IN = 20, USER = 32 };
enum { LITERAL = 1, VARIABLE = 2 };

#define KEY(a, b) ((a) + 256 * (b))
#define HIGHEST 2147483647
#define NONE 65535

static const char variables[] = "R1R2R3R4P\0A\0D\0VIVMERO1O2O3MVEFI1I2I3I4IN";
static const char mnemonics[] = "LBVAICDCBRCLRTE\0H\0OEMAMRSLPR";

/* The words of the drives that have two characters, in the order of the alphabet. */
static const u8 drive_words[] =
    "ABAFAJALAOASATAVBDBEBLBMBPBRBYC1C2CBCECFCKCLCPCSCWD1D2D3D4D5DBDCDEDGDJDNDTEEEFELEMERESEXF1F2F3F4F5F6F7F8FCFDFLFMFSFT"
    "HCHFHIHMHTI1I2I3I4I5I6I7I8I9ICIFINIPISITIVJELBLDLGLKLLLMLOLRLSLTMAMDMFMPMRMSMTMUMVNEO1O2O3OEOFOSOTPCPFPGPIPKPMPNPRPSPWPYQD"
    "R1R2R3R4RARCRDRSRTSASCSFSISLSMSNSQSTSUTATCTDTETGTITMTPTQTRTSTTUGUVVAVCVFVIVMVRVTWT";

struct operand { u8 shape; i32 number; };
struct cell { u8 operation; u16 written; u8 selector; struct operand left, right; u16 target; };
struct line { u8 fault, kind; u16 name; i32 start; struct cell cell; };
struct cursor { const u8 *at, *end; u8 big; };

/* Names */

static u32 place_in(const char *table, u32 count, u16 key) {
    for (u32 i = 0; i < count; i++)
        if ((u8)table[2 * i] + 256 * (u8)table[2 * i + 1] == key) return i + 1;
    return 0;
}

static u32 paper_variable(u16 key) { return place_in(variables, 20, key); }
static int paper_word(u16 key) { return place_in(mnemonics, 14, key) || paper_variable(key); }
static int letter(u8 c) { return 'A' <= c && c <= 'Z'; }
static int digit(u8 c) { return '0' <= c && c <= '9'; }
static int two_characters(u16 key) { return letter(key % 256) && (letter(key / 256) || digit(key / 256)); }
static int user_name(u16 key) { return two_characters(key) && !paper_word(key); }

/* Whether a name is a word of the drives: what is left of the table to look through is halved each time. */
static int reserved(u16 key) {
    u32 sought = key % 256 * 256 + key / 256, low = 0, high = (sizeof drive_words - 1) / 2;
    while (low < high) {
        u32 middle = (low + high) / 2, here = drive_words[2 * middle] * 256 + drive_words[2 * middle + 1];
        if (here == sought) return 1;
        if (here < sought) low = middle + 1;
        else high = middle;
    }
    return 0;
}

static int free_name(u16 key) { return two_characters(key) && !reserved(key); }

/* One line */

static void skip(struct cursor *c) { while (c->at < c->end && *c->at == ' ') c->at++; }

static int done(struct cursor *c) { skip(c); return c->at == c->end; }

static int symbol(struct cursor *c, u8 s) {
    skip(c);
    if (c->at == c->end || *c->at != s) return 0;
    c->at++;
    return 1;
}

/* A word, one or two characters long; 0 where none stands here. */
static u16 word(struct cursor *c) {
    skip(c);
    const u8 *p = c->at;
    if (p == c->end || !letter(*p)) return 0;
    u16 key = *p++;
    if (p < c->end && (letter(*p) || digit(*p))) key += 256 * *p++;
    if (p < c->end && (letter(*p) || digit(*p))) return 0;
    c->at = p;
    return key;
}

/* A literal; one that is too big is noted. */
static int literal(struct cursor *c, i32 *value) {
    skip(c);
    const u8 *p = c->at;
    int negative = p < c->end && *p == '-';
    u64 n = 0;
    u32 digits = 0;
    p += negative;
    for (; p < c->end && digit(*p); p++, digits++)
        if (digits < 10) n = n * 10 + (*p - '0');
    if (digits == 0 || 10 < digits || (p < c->end && letter(*p))) return 0;
    c->at = p;
    if (HIGHEST < n) c->big = 1, n = 0;
    *value = negative ? -(i32)n : (i32)n;
    return 1;
}

static int variable(struct cursor *c, u16 *key) {
    *key = word(c);
    return paper_variable(*key) || user_name(*key);
}

static int operand(struct cursor *c, struct operand *o) {
    u16 key;
    if (literal(c, &o->number)) { o->shape = LITERAL; return 1; }
    if (!variable(c, &key)) return 0;
    o->shape = VARIABLE;
    o->number = key;
    return 1;
}

static u8 operator(struct cursor *c) {
    static const char signs[] = "+-*/&|^";
    skip(c);
    for (u8 i = 0; i < 7; i++)
        if (c->at < c->end && *c->at == (u8)signs[i]) { c->at++; return i + 1; }
    return 0;
}

static u8 comparison(struct cursor *c) {
    skip(c);
    if (c->at == c->end) return 0;
    u8 a = *c->at, b = c->at + 1 < c->end ? c->at[1] : 0;
    if (a == '=') { c->at++; return 1; }
    if (a == '<' && b == '>') { c->at += 2; return 2; }
    if (a == '<' && b == '=') { c->at += 2; return 4; }
    if (a == '<') { c->at++; return 3; }
    if (a == '>' && b == '=') { c->at += 2; return 6; }
    if (a == '>') { c->at++; return 5; }
    return 0;
}

static int jump(struct cursor *c, struct cell *cell) {
    cell->target = word(c);
    if (!user_name(cell->target)) return 0;
    if (done(c)) return 1;
    return symbol(c, ',') && operand(c, &cell->left) && (cell->selector = comparison(c)) && operand(c, &cell->right);
}

static int handler(struct cursor *c, struct cell *cell) {
    if (symbol(c, '0')) { cell->target = NONE; return 1; }
    cell->target = word(c);
    return user_name(cell->target);
}

static int assignment(struct cursor *c, struct cell *cell, u16 key) {
    cell->written = key;
    if (!(paper_variable(key) || user_name(key)) || !symbol(c, '=') || !operand(c, &cell->left)) return 0;
    cell->operation = SET;
    if (done(c)) return 1;
    cell->operation = SET_WITH;
    return (cell->selector = operator(c)) && operand(c, &cell->right);
}

static int statement(struct cursor *c, struct line *l) {
    u16 key = word(c);
    struct cell *cell = &l->cell;
    l->kind = ACTS;
    switch (key) {
    case KEY('L', 'B'): l->kind = LABEL; return two_characters(l->name = word(c));
    case KEY('V', 'A'):
        l->kind = DECLARED;
        if (!two_characters(l->name = word(c))) return 0;
        return done(c) || (symbol(c, '=') && literal(c, &l->start));
    case KEY('I', 'C'): cell->operation = IC; return variable(c, &cell->written);
    case KEY('D', 'C'): cell->operation = DC; return variable(c, &cell->written);
    case KEY('B', 'R'): cell->operation = BR; return jump(c, cell);
    case KEY('C', 'L'): cell->operation = CL; return jump(c, cell);
    case KEY('R', 'T'): cell->operation = RT; return 1;
    case 'E': cell->operation = E; return 1;
    case 'H': cell->operation = H; return done(c) || operand(c, &cell->left);
    case KEY('O', 'E'): cell->operation = OE; return handler(c, cell);
    case KEY('M', 'A'): cell->operation = MA; return operand(c, &cell->left);
    case KEY('M', 'R'): cell->operation = MR; return operand(c, &cell->left);
    case KEY('S', 'L'): cell->operation = SL; return operand(c, &cell->left);
    case KEY('P', 'R'): cell->operation = PR; return operand(c, &cell->left);
    }
    return assignment(c, cell, key);
}

static struct line faulty(u8 fault) {
    struct line l = { 0 };
    l.fault = fault;
    return l;
}

static struct line read_line(const u8 *at, const u8 *end) {
    struct line l = { 0 };
    struct cursor c = { at, at, 0 };
    if (64 < end - at) return faulty(2);
    for (const u8 *p = at; p < end; p++)
        if (*p < 32 || 126 < *p) return faulty(3);
    while (c.end < end && *c.end != '\'') c.end++;
    if (done(&c)) return l;
    if (!statement(&c, &l) || !done(&c)) return faulty(3);
    if (c.big) return faulty(4);
    if (l.kind != ACTS && reserved(l.name)) return faulty(5);
    return l;
}

/* Lines of a text */

static const u8 *line_end(const u8 *at, const u8 *end) {
    for (; at < end; at++)
        if (*at == '\n' || (*at == '\r' && at + 1 < end && at[1] == '\n')) return at;
    return end;
}

static const u8 *line_next(const u8 *at, const u8 *end) {
    if (at == end) return at;
    return *at == '\n' ? at + 1 : at + 2;
}

/* The names of a text: a row for each name of two characters, in order. */

enum { ROWS = 936 };

struct row { u8 kind; u32 line, place; };

static u32 row_of(u16 key) {
    u32 first = key % 256, second = key / 256;
    if (!two_characters(key)) return ROWS;
    return (first - 'A') * 36 + (digit(second) ? second - '0' : second - 'A' + 10);
}

static struct row look_up(const struct row *rows, u16 key) {
    u32 i = row_of(key);
    return i < ROWS ? rows[i] : (struct row){ 0 };
}

/* The first line that declares a name has its row. */
static void enter(struct row *rows, u16 key, struct row row) {
    u32 i = row_of(key);
    if (i < ROWS && !rows[i].kind) rows[i] = row;
}

static void arrange(const u8 *text, const u8 *end, struct row *rows) {
    u32 cells = 0, variables = 0;
    for (u32 i = 0; i < ROWS; i++) rows[i] = (struct row){ 0 };
    for (u32 line = 1; text < end; line++) {
        const u8 *stop = line_end(text, end);
        struct line l = read_line(text, stop);
        if (l.kind == LABEL) enter(rows, l.name, (struct row){ LABEL, line, cells });
        if (l.kind == DECLARED) enter(rows, l.name, (struct row){ DECLARED, line, variables });
        cells += l.kind == ACTS;
        variables += l.kind == DECLARED;
        text = line_next(stop, end);
    }
}

static int unknown_variable(const struct row *rows, u16 key) { return look_up(rows, key).kind != DECLARED && !paper_variable(key); }

static int unknown_operand(const struct row *rows, struct operand o) { return o.shape == VARIABLE && unknown_variable(rows, o.number); }

static int undeclared(const struct row *rows, const struct cell *c) {
    if (c->target != 0 && c->target != NONE && look_up(rows, c->target).kind != LABEL) return 1;
    if (c->written != 0 && unknown_variable(rows, c->written)) return 1;
    return unknown_operand(rows, c->left) || unknown_operand(rows, c->right);
}

static int read_only(u32 v) { return MV <= v && v <= IN; }

struct counts { u32 cells, labels, variables; };

static u8 line_fault(const struct row *rows, u32 line, struct counts n, const struct line *l) {
    if (l->fault) return l->fault;
    if ((l->kind == LABEL || l->kind == DECLARED) && look_up(rows, l->name).line < line) return 6;
    if (l->kind == ACTS && 256 <= n.cells) return 7;
    if (l->kind == LABEL && 160 <= n.labels) return 7;
    if (l->kind == DECLARED && 32 <= n.variables) return 7;
    if (undeclared(rows, &l->cell)) return 8;
    if (l->cell.written && read_only(paper_variable(l->cell.written))) return 9;
    return 0;
}

/* Fields */

static u32 read2(const u8 *p) { return p[0] + 256 * p[1]; }
static u32 read4(const u8 *p) { return p[0] | p[1] << 8 | p[2] << 16 | (u32)p[3] << 24; }
static void write2(u8 *p, u32 n) { p[0] = n; p[1] = n >> 8; }
static void write4(u8 *p, u32 n) { write2(p, n); write2(p + 2, n >> 16); }

static u32 number_of(const struct row *rows, u16 key) {
    struct row row = look_up(rows, key);
    return row.kind == DECLARED ? USER + row.place : paper_variable(key);
}

static u32 operand_bits(const struct row *rows, struct operand o) { return o.shape == VARIABLE ? number_of(rows, o.number) : (u32)o.number; }

static void write_cell(const struct row *rows, u8 *p, const struct cell *c) {
    p[0] = c->operation;
    p[1] = c->written ? number_of(rows, c->written) : 0;
    p[2] = c->selector;
    p[3] = c->left.shape + 4 * c->right.shape;
    write4(p + 4, operand_bits(rows, c->left));
    write4(p + 8, operand_bits(rows, c->right));
    write2(p + 12, c->target == 0 || c->target == NONE ? c->target : look_up(rows, c->target).place);
    write2(p + 14, 0);
}

static void write_image(const u8 *text, const u8 *end, const struct row *rows, u8 *image, struct counts n) {
    u8 *cell = image, *label = image + 16 * n.cells, *variable = label + 4 * n.labels, *trailer = variable + 8 * n.variables;
    for (const u8 *at = text; at < end;) {
        const u8 *stop = line_end(at, end);
        struct line l = read_line(at, stop);
        if (l.kind == ACTS) { write_cell(rows, cell, &l.cell); cell += 16; }
        if (l.kind == LABEL) { write2(label, l.name); write2(label + 2, look_up(rows, l.name).place); label += 4; }
        if (l.kind == DECLARED) { write2(variable, l.name); write2(variable + 2, 0); write4(variable + 4, l.start); variable += 8; }
        at = line_next(stop, end);
    }
    write4(trailer, 16 * n.cells);
    write2(trailer + 4, n.cells);
    write2(trailer + 6, n.labels);
    write2(trailer + 8, n.variables);
    write2(trailer + 10, 1);
    write4(trailer + 12, trailer + 16 - image);
}

struct translated translate(const u8 *text, u32 size, u8 *image, u32 room) {
    struct translated t = { 0 };
    struct counts n = { 0 };
    const u8 *end = text + size;
    struct row rows[ROWS];
    u32 line = 1;
    if (16384 < size) { t.number = 1; return t; }
    arrange(text, end, rows);
    for (const u8 *at = text; at < end; line++) {
        const u8 *stop = line_end(at, end);
        struct line l = read_line(at, stop);
        u8 fault = line_fault(rows, line, n, &l);
        if (fault) { t.number = fault; t.line = line; return t; }
        n.cells += l.kind == ACTS;
        n.labels += l.kind == LABEL;
        n.variables += l.kind == DECLARED;
        at = line_next(stop, end);
    }
    u32 length = 16 * n.cells + 4 * n.labels + 8 * n.variables + 16;
    if (room < length) { t.number = 10; return t; }
    write_image(text, end, rows, image, n);
    t.length = length;
    return t;
}

/* Checking */

struct layout { u8 operation, written, last, left, right, target; };

static const struct layout layouts[] = {
    { SET, 1, 0, 1, 0, 0 }, { SET_WITH, 1, 7, 1, 1, 0 }, { IC, 1, 0, 0, 0, 0 }, { DC, 1, 0, 0, 0, 0 },
    { BR, 0, 0, 0, 0, 1 }, { BR, 0, 6, 1, 1, 1 }, { CL, 0, 0, 0, 0, 1 }, { CL, 0, 6, 1, 1, 1 },
    { RT, 0, 0, 0, 0, 0 }, { E, 0, 0, 0, 0, 0 }, { H, 0, 0, 0, 0, 0 }, { H, 0, 0, 1, 0, 0 },
    { OE, 0, 0, 0, 0, 1 }, { MA, 0, 0, 1, 0, 0 }, { MR, 0, 0, 1, 0, 0 }, { SL, 0, 0, 1, 0, 0 }, { PR, 0, 0, 1, 0, 0 },
};

struct parts { const u8 *cells, *labels, *variables; u32 cell_count, label_count, variable_count; };

static struct parts parts_of(const u8 *image, u32 size) {
    const u8 *t = image + size - 16;
    struct parts p = { image, 0, 0, read2(t + 4), read2(t + 6), read2(t + 8) };
    p.labels = image + 16 * p.cell_count;
    p.variables = p.labels + 4 * p.label_count;
    return p;
}

static int present(u32 users, u32 v) { return (1 <= v && v <= IN) || (USER <= v && v < USER + users); }

static int good_operand(u32 users, u8 used, u8 shape, u32 n) {
    if (!used) return shape == 0 && n == 0;
    return (shape == LITERAL && n != 0x80000000u) || (shape == VARIABLE && present(users, n));
}

static int good_target(const struct parts *p, const struct layout *u, u32 target) {
    if (!u->target) return target == 0;
    if (u->operation == OE && target == NONE) return 1;
    for (u32 k = 0; k < p->label_count; k++)
        if (read2(p->labels + 4 * k + 2) == target) return 1;
    return 0;
}

static int fits(const struct parts *p, const u8 *c, const struct layout *u) {
    if (c[0] != u->operation) return 0;
    if (u->written ? !present(p->variable_count, c[1]) || read_only(c[1]) : c[1] != 0) return 0;
    if (u->last ? c[2] < 1 || u->last < c[2] : c[2] != 0) return 0;
    if (!good_operand(p->variable_count, u->left, c[3] % 4, read4(c + 4))) return 0;
    if (!good_operand(p->variable_count, u->right, c[3] / 4, read4(c + 8))) return 0;
    return good_target(p, u, read2(c + 12)) && read2(c + 14) == 0;
}

static int good_cell(const struct parts *p, const u8 *c) {
    for (u32 i = 0; i < sizeof layouts / sizeof *layouts; i++)
        if (fits(p, c, &layouts[i])) return 1;
    return 0;
}

static u32 name_at(const struct parts *p, u32 k) {
    return k < p->label_count ? read2(p->labels + 4 * k) : read2(p->variables + 8 * (k - p->label_count));
}

static int bad_names(const struct parts *p) {
    for (u32 k = 0; k < p->label_count + p->variable_count; k++) {
        u32 name = name_at(p, k);
        if (!free_name(name)) return 1;
        for (u32 j = 0; j < k; j++)
            if (name_at(p, j) == name) return 1;
    }
    return 0;
}

static int bad_records(const struct parts *p) {
    u32 least = 0;
    if (bad_names(p)) return 1;
    for (u32 k = 0; k < p->label_count; k++) {
        u32 target = read2(p->labels + 4 * k + 2);
        if (target < least || p->cell_count < target) return 1;
        least = target;
    }
    for (u32 k = 0; k < p->variable_count; k++)
        if (read2(p->variables + 8 * k + 2) || read4(p->variables + 8 * k + 4) == 0x80000000u) return 1;
    return 0;
}

u8 check(const u8 *image, u32 size) {
    if (size < 16 || 5008 < size) return 21;
    const u8 *t = image + size - 16;
    struct parts p = parts_of(image, size);
    if (read2(t + 10) != 1) return 22;
    if (read4(t) != 16 * p.cell_count || read4(t + 12) != size) return 23;
    if (16 * p.cell_count + 4 * p.label_count + 8 * p.variable_count + 16 != size) return 23;
    if (256 < p.cell_count || 160 < p.label_count || 32 < p.variable_count) return 23;
    for (u32 k = 0; k < p.cell_count; k++)
        if (!good_cell(&p, image + 16 * k)) return 24;
    return bad_records(&p) ? 25 : 0;
}

/* Listing */

enum { LONGEST = 9472 };

/* A page as it is filled, the parts of the image, and the first label of each target. */
struct printer { u8 *at; struct parts parts; u16 firsts[257]; };

static void put(struct printer *o, u32 byte) { *o->at++ = byte; }

static void put_name(struct printer *o, u32 key) {
    put(o, key);
    if (255 < key) put(o, key >> 8);
}

static void put_literal(struct printer *o, i32 value) {
    u8 digits[10];
    u32 n = value < 0 ? -(u32)value : (u32)value, count = 0;
    if (value < 0) put(o, '-');
    do digits[count++] = '0' + n % 10; while (n /= 10);
    while (count) put(o, digits[--count]);
}

static void put_variable(struct printer *o, u32 v) {
    put_name(o, read2(v < USER ? (const u8 *)variables + 2 * (v - 1) : o->parts.variables + 8 * (v - USER)));
}

static void put_operand(struct printer *o, u8 shape, u32 n) {
    if (shape == LITERAL) put_literal(o, n);
    if (shape == VARIABLE) put_variable(o, n);
}

static void put_labels(struct printer *o, u32 *label, u32 cell) {
    for (; *label < o->parts.label_count && read2(o->parts.labels + 4 * *label + 2) == cell; (*label)++) {
        put_name(o, KEY('L', 'B'));
        put(o, ' ');
        put_name(o, read2(o->parts.labels + 4 * *label));
        put(o, '\n');
    }
}

static void put_statement(struct printer *o, const u8 *c) {
    static const u8 comparisons[] = "=\0<>< <=> >=";
    u32 target = read2(c + 12), jumps = c[0] == BR || c[0] == CL;
    if (c[0] <= SET_WITH) {
        put_variable(o, c[1]);
        put(o, '=');
    } else {
        put_name(o, read2((const u8 *)mnemonics + 2 * (c[0] - 1)));
        if (c[1] || c[3] || jumps || c[0] == OE) put(o, ' ');
        if (c[1]) put_variable(o, c[1]);
        if (c[0] == OE && target == NONE) put(o, '0');
        else if (jumps || c[0] == OE) put_name(o, o->firsts[target]);
        if (jumps && c[2]) put(o, ',');
    }
    put_operand(o, c[3] % 4, read4(c + 4));
    if (c[0] == SET_WITH) put(o, "+-*/&|^"[c[2] - 1]);
    if (jumps && c[2]) {
        put(o, comparisons[2 * c[2] - 2]);
        if (' ' < comparisons[2 * c[2] - 1]) put(o, comparisons[2 * c[2] - 1]);
    }
    put_operand(o, c[3] / 4, read4(c + 8));
    put(o, '\n');
}

struct listed list(const u8 *image, u32 size, u8 *text, u32 room) {
    struct listed l = { 0 };
    struct printer o;
    u8 page[LONGEST];
    u32 label = 0;
    l.number = check(image, size);
    if (l.number) return l;
    o.at = page;
    o.parts = parts_of(image, size);
    for (u32 k = o.parts.label_count; k--;) o.firsts[read2(o.parts.labels + 4 * k + 2)] = read2(o.parts.labels + 4 * k);
    for (u32 k = 0; k < o.parts.variable_count; k++) {
        put_name(&o, KEY('V', 'A'));
        put(&o, ' ');
        put_variable(&o, USER + k);
        put(&o, '=');
        put_literal(&o, read4(o.parts.variables + 8 * k + 4));
        put(&o, '\n');
    }
    for (u32 k = 0; k < o.parts.cell_count; k++) {
        put_labels(&o, &label, k);
        put_statement(&o, image + 16 * k);
    }
    put_labels(&o, &label, o.parts.cell_count);
    if (room < o.at - page) { l.number = 11; return l; }
    l.length = o.at - page;
    for (u32 i = 0; i < l.length; i++) text[i] = page[i];
    return l;
}

/* Running */

struct wrote { u8 kind, number; i32 value; };

static i32 value(const i32 *vars, u8 shape, u32 n) { return shape == LITERAL ? (i32)n : shape == VARIABLE ? vars[n] : 0; }

static int in_range(const i32 *vars, u32 v, i64 x) {
    i64 low = -(i64)HIGHEST, high = HIGHEST;
    if (v == A || v == D) low = 1;
    else if (v == VI) low = 1, high = (i64)vars[VM] - 1;
    else if (v == VM) low = (i64)vars[VI] + 1, high = 2560000;
    else if (v == ER) low = 0, high = 0;
    else if (ER < v && v < IN) low = 0, high = 1;
    else if (v == IN) low = 0, high = 15;
    return low <= x && x <= high;
}

static struct wrote fail(struct state *m, u8 error, int *stops) {
    struct wrote w = { 6, 0, error };
    m->variables[ER] = error;
    m->variables[EF] = 1;
    if (m->handler == NONE) m->next++;
    else if (8 <= m->kept) *stops = 1;
    else {
        m->places[m->kept++] = (struct place){ m->next + 1, m->handler, 1 };
        m->next = m->handler;
        m->handler = NONE;
    }
    return w;
}

/* The error of a result: 101 above the literal range, 109 below it, 0 inside. */
static u8 result_error(i64 x) { return HIGHEST < x ? 101 : x < -(i64)HIGHEST ? 109 : 0; }

static struct wrote store(struct state *m, u32 v, i64 x, int *stops) {
    struct wrote w = { 0 };
    if (result_error(x)) return fail(m, result_error(x), stops);
    if (!in_range(m->variables, v, x)) return fail(m, 103, stops);
    m->variables[v] = x;
    if (v == ER) m->variables[EF] = 0;
    m->next++;
    if (O1 <= v && v <= O3) { w.kind = 1; w.number = v - O1 + 1; w.value = x; }
    return w;
}

static i64 operate(u8 operator, i32 x, i32 y) {
    switch (operator) {
    case 1: return (i64)x + y;
    case 2: return (i64)x - y;
    case 3: return (i64)x * y;
    case 4: return (i64)x / y;
    case 5: return x & y;
    case 6: return x | y;
    }
    return x ^ y;
}

static int holds(u8 comparison, i32 x, i32 y) {
    switch (comparison) {
    case 0: return 1;
    case 1: return x == y;
    case 2: return x != y;
    case 3: return x < y;
    case 4: return x <= y;
    case 5: return x > y;
    }
    return x >= y;
}

static struct wrote move(struct state *m, i64 target, u8 kind, i32 x, int *stops) {
    struct wrote w = { kind, 0, x };
    if (m->variables[MV]) return fail(m, 106, stops);
    if (result_error(target)) return fail(m, result_error(target), stops);
    m->motion = 1;
    m->value = target;
    m->variables[MV] = 1;
    m->next++;
    return w;
}

static struct wrote slew(struct state *m, i32 x, int *stops) {
    struct wrote w = { 4, 0, x };
    if (x < -5000000 || 5000000 < x) return fail(m, 103, stops);
    m->motion = x ? 2 : 0;
    m->value = x;
    m->variables[MV] = x != 0;
    m->next++;
    return w;
}

static struct wrote hold(struct state *m, u8 shape, i32 x, int *stops) {
    struct wrote w = { 0 };
    if (shape == 0) { m->next += !m->variables[MV]; return w; }
    if (m->hold == 0 && (x < 1 || 65000 < x)) return fail(m, 103, stops);
    m->hold = (m->hold ? m->hold : (u32)x) - 1;
    m->next += m->hold == 0;
    return w;
}

static struct wrote act(struct state *m, const u8 *c, u32 cells, int *stops) {
    struct wrote w = { 0 };
    struct place place;
    u8 left = c[3] % 4;
    u32 n = read4(c + 4);
    i32 x = value(m->variables, left, n), y = value(m->variables, c[3] / 4, read4(c + 8));
    switch (c[0]) {
    case SET: return store(m, c[1], x, stops);
    case SET_WITH: return c[2] == 4 && y == 0 ? fail(m, 102, stops) : store(m, c[1], operate(c[2], x, y), stops);
    case IC: return store(m, c[1], (i64)m->variables[c[1]] + 1, stops);
    case DC: return store(m, c[1], (i64)m->variables[c[1]] - 1, stops);
    case BR: m->next = holds(c[2], x, y) ? read2(c + 12) : m->next + 1; return w;
    case CL:
        if (!holds(c[2], x, y)) { m->next++; return w; }
        if (8 <= m->kept) return fail(m, 104, stops);
        m->places[m->kept++] = (struct place){ m->next + 1, 0, 0 };
        m->next = read2(c + 12);
        return w;
    case RT:
        if (m->kept == 0) return fail(m, 105, stops);
        place = m->places[--m->kept];
        m->places[m->kept] = (struct place){ 0 };
        m->next = place.cell;
        if (place.mark) m->handler = place.target;
        return w;
    case E: m->next = cells; return w;
    case H: return hold(m, left, x, stops);
    case OE:
        for (u8 k = 0; k < m->kept; k++) m->places[k].target = 0, m->places[k].mark = 0;
        m->handler = read2(c + 12);
        m->next++;
        return w;
    case MA: return move(m, x, 2, x, stops);
    case MR: return move(m, (i64)m->variables[P] + x, 3, x, stops);
    case SL: return slew(m, x, stops);
    }
    w.kind = 5;
    w.number = left == VARIABLE ? n : 0;
    w.value = x;
    m->next++;
    return w;
}

/* Whether ER is an operand of the cell. */
static int reads_er(const u8 *c) {
    return (c[3] % 4 == VARIABLE && read4(c + 4) == ER) || (c[3] / 4 == VARIABLE && read4(c + 8) == ER);
}

/* The statement, and behind it EF is 0 if it read ER; but not if it is in error, nor in the later turns of a hold, which read nothing. */
static struct wrote turn(struct state *m, const u8 *c, u32 cells, int *stops) {
    int holding = m->hold != 0;
    struct wrote w = act(m, c, cells, stops);
    if (m->variables[EF] && w.kind != 6 && !holding && reads_er(c)) m->variables[EF] = 0;
    return w;
}

static void happen(struct state *m, const u8 *e) {
    i32 *v = m->variables;
    switch (e[4]) {
    case 1:
        v[I1 + e[5] - 1] = read4(e + 8);
        v[IN] = v[I1] + 2 * v[I1 + 1] + 4 * v[I1 + 2] + 8 * v[I1 + 3];
        break;
    case 2:
        if (m->motion == 1) { v[P] = m->value; v[MV] = 0; m->motion = 0; m->value = 0; }
        break;
    default: v[P] = read4(e + 8);
    }
}

static int good_event(const u8 *e) {
    u32 x = read4(e + 8);
    if (read2(e + 6)) return 0;
    if (e[4] == 1) return 1 <= e[5] && e[5] <= 4 && x <= 1;
    if (e[4] == 2) return e[5] == 0 && x == 0;
    return e[4] == 3 && e[5] == 0 && x != 0x80000000u;
}

static void start(struct state *m, const struct parts *p) {
    m->variables[A] = m->variables[D] = 1000000;
    m->variables[VI] = 1000;
    m->variables[VM] = 768000;
    m->handler = NONE;
    for (u32 k = 0; k < p->variable_count; k++) m->variables[USER + k] = read4(p->variables + 8 * k + 4);
}

static struct ran refused(u8 number, u32 index) {
    struct ran r = { 0 };
    r.number = number;
    r.index = index;
    return r;
}

static u8 *write_record(u8 *at, u32 turn, struct wrote w) {
    if (w.kind == 0) return at;
    write4(at, turn);
    at[4] = w.kind;
    at[5] = w.number;
    write2(at + 6, 0);
    write4(at + 8, w.value);
    return at + 12;
}

static void course(struct ran *r, const struct parts *p, const u8 *events, u32 count, u32 budget, u8 *records) {
    struct state *m = &r->state;
    u8 *at = records;
    u32 k = 0;
    int stops = 0;
    start(m, p);
    for (;;) {
        if (p->cell_count <= m->next) { r->reason = 1; break; }
        if (budget <= r->turns) { r->reason = 3; break; }
        for (; k < count && read4(events + 12 * k) == r->turns; k++) happen(m, events + 12 * k);
        struct wrote w = turn(m, p->cells + 16 * m->next, p->cell_count, &stops);
        at = write_record(at, r->turns, w);
        r->turns++;
        if (stops) { r->reason = 2; break; }
    }
    r->records = (at - records) / 12;
}

struct ran run(const u8 *image, u32 size, const u8 *events, u32 event_bytes, u32 budget, u8 *records, u32 room) {
    struct ran r = { 0 };
    u32 count = event_bytes / 12;
    u8 number = check(image, size);
    if (number) return refused(number, 0);
    if (event_bytes % 12 || 4096 < count) return refused(32, 0);
    for (u32 k = 0; k < count; k++)
        if (!good_event(events + 12 * k) || (k && read4(events + 12 * k) < read4(events + 12 * k - 12))) return refused(33, k);
    if (4096 < budget) return refused(34, 0);
    if (room < 12 * budget) return refused(35, 0);
    struct parts p = parts_of(image, size);
    course(&r, &p, events, count, budget, records);
    return r;
}

/* Comparing */

static int bad_buffer(const u8 *s, u32 size) {
    u32 count = size / 12;
    if (size % 12 || 8192 < count) return 1;
    for (u32 k = 0; k < count; k++)
        if (read2(s + 12 * k + 6)) return 1;
    return 0;
}

/* What differs between two records. */
static u32 field_sum(const u8 *a, const u8 *b) {
    return (read4(a) != read4(b)) + 2 * (a[4] != b[4]) + 4 * (a[5] != b[5]) + 8 * (read4(a + 8) != read4(b + 8));
}

/* The sum of a record number; 16 and 32 where one buffer has no such record. */
static u32 sum_at(const u8 *first, u32 n, const u8 *second, u32 m, u32 k) {
    return m <= k ? 16 : n <= k ? 32 : field_sum(first + 12 * k, second + 12 * k);
}

struct compared compare(const u8 *first, u32 first_bytes, const u8 *second, u32 second_bytes, u8 *list, u32 room) {
    struct compared c = { 0 };
    if (bad_buffer(first, first_bytes)) { c.number = 51; return c; }
    if (bad_buffer(second, second_bytes)) { c.number = 52; return c; }
    u32 n = first_bytes / 12, m = second_bytes / 12, end = n < m ? m : n, entries = 0;
    for (u32 k = 0; k < end; k++) entries += sum_at(first, n, second, m, k) != 0;
    if (room < 8 * entries) { c.number = 53; return c; }
    for (u32 k = 0; k < end; k++) {
        u32 sum = sum_at(first, n, second, m, k);
        if (sum) { write4(list, k); write4(list + 4, sum); list += 8; }
    }
    c.entries = entries;
    return c;
}
