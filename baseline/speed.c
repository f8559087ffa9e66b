/* Repeats one of the calls and prints a checksum, or the number of a refusal: the same work, and the same line, as the program `speed`. */
#include "bench.h"

enum { TEXT = 16384, LISTING = 9472, TURNS = 4096, RECORDS = 8192, EVENT = 12, ENTRY = 8, BLOCKS = 32, CELL_LINE = 37, NAME_LINE = 36 };

long write(int file, const void *bytes, unsigned long count);

static u8 text[TEXT], image[5008], listing[LISTING], events[EVENT * TURNS], records[EVENT * TURNS];
static u8 first[EVENT * RECORDS], second[EVENT * RECORDS], entries[ENTRY * RECORDS];

/* A line of this width: a statement with one name in it, and a comment. From E on no second character makes a word of the drives. */
static u8 *put_line(u8 *at, const char *before, char letter, u32 number, const char *after, u32 width) {
    u8 *last = at + width - 1;
    while (*before) *at++ = *before++;
    *at++ = letter;
    *at++ = number < 22 ? 'E' + number : '0' + (number - 22);
    while (*after) *at++ = *after++;
    *at++ = ' ';
    *at++ = '\'';
    while (at < last) *at++ = '.';
    *at++ = '\n';
    return at;
}

/* A statement of a block, one of eight: the fifth is one of four, by the block's number. */
static u8 *put_statement(u8 *at, u32 b, u32 blocks, u32 which) {
    switch (which < 4 ? which : which == 4 ? 4 + b % 4 : which + 3) {
    case 0: return put_line(at, "IC ", 'X', b, "", CELL_LINE);
    case 1: return put_line(at, "R1=", 'X', b, "*3", CELL_LINE);
    case 2: return put_line(at, "O1=", 'X', b, "&1", CELL_LINE);
    case 3: return put_line(at, "BR ", 'Q', b, ",IN>=8", CELL_LINE);
    case 4: return put_line(at, "", 'X', (b + 11) % blocks, "=R1&255", CELL_LINE);
    case 5: return put_line(at, "MR ", 'X', b, "", CELL_LINE);
    case 6: return put_line(at, "R2=", 'X', b, "/3", CELL_LINE);
    case 7: return put_line(at, "R3=", 'X', b, "^5", CELL_LINE);
    case 8: return put_line(at, "PR ", 'X', b, "", CELL_LINE);
    case 9: return put_line(at, "BR ", 'G', b, ",R1<30", CELL_LINE);
    }
    return put_line(at, "BR ", 'G', (b + 13) % blocks, "", CELL_LINE);
}

/* A declaration of a block, one of six. */
static u8 *put_declaration(u8 *at, u32 b, u32 which) {
    if (which == 0) return put_line(at, "VA ", 'X', b, "=7", NAME_LINE);
    return put_line(at, "LB ", " GYKQZ"[which], b, "", NAME_LINE);
}

/* The lines of a block in their order: the declarations by letter, the statements by digit. */
static u8 *put_block(u8 *at, u32 b) {
    for (const char *c = "ab0c12d34e5f67"; *c; c++) at = *c < 'a' ? put_statement(at, b, BLOCKS, *c - '0') : put_declaration(at, b, *c - 'a');
    return at;
}

/* So many blocks with the declarations behind all statements. */
static u32 put_late(u32 blocks) {
    u8 *at = text;
    for (u32 b = 0; b < blocks; b++)
        for (u32 k = 0; k < 8; k++) at = put_statement(at, b, blocks, k);
    for (u32 b = 0; b < blocks; b++)
        for (u32 k = 0; k < 6; k++) at = put_declaration(at, b, k);
    return at - text;
}

static void put_event(u8 *at, u32 k) {
    u32 kind = k % 16 == 7 ? 2 : k % 16 == 15 ? 3 : 1;
    u32 value = kind == 1 ? k / 16 % 2 : kind == 3 ? 3 * k : 0;
    at[0] = k % 256;
    at[1] = k / 256;
    at[4] = kind;
    at[5] = kind == 1 ? 1 + k % 4 : 0;
    at[8] = value % 256;
    at[9] = value / 256;
}

/* Record k of one of two runs; the second has another turn, kind, number or value in five of eight. */
static void put_record(u8 *at, u32 k, u32 other) {
    u32 turn = k + (other && k % 8 == 1), value = 3 * k + (other && k % 4 == 0);
    at[0] = turn % 256;
    at[1] = turn / 256;
    at[4] = 1 + k % 6 + (other && k % 8 == 2);
    at[5] = k % 4 + (other && k % 8 == 3);
    at[8] = value % 256;
    at[9] = value / 256;
}

/* A program that calls eight deep and returns, again and again. */
static const char calls[] =
    "LB GA\nCL GB\nBR GA\nLB GB\nCL GC\nRT\nLB GC\nCL GD\nRT\nLB GD\nCL GE\nRT\nLB GE\nCL GF\nRT\n"
    "LB GF\nCL GG\nRT\nLB GG\nCL GH\nRT\nLB GH\nCL GI\nRT\nLB GI\nRT\n";

/* A sum is below the modulus; where a call is refused, its number stands above it. */
#define MODULUS 4294967291u

static u64 mixed(u64 sum, u64 x) { return (sum * 31 + x) % MODULUS; }

static u64 refused(u8 number) { return (u64)MODULUS + number; }

static u64 mixed_bytes(u64 sum, const u8 *bytes, u32 count) {
    for (u32 i = 0; i < count; i++) sum = mixed(sum, bytes[i]);
    return sum;
}

static u64 signless(i32 z) { return (u64)((i64)z + 2147483648ll); }

static u64 mixed_state(u64 sum, const struct state *s) {
    sum = mixed(mixed(sum, s->next), s->kept);
    for (u32 i = 0; i < 8; i++) sum = mixed(mixed(mixed(sum, s->places[i].cell), s->places[i].target), s->places[i].mark);
    sum = mixed(mixed(mixed(mixed(sum, s->handler), s->hold), s->motion), signless(s->value));
    for (u32 i = 0; i < 64; i++) sum = mixed(sum, signless(s->variables[i]));
    return sum;
}

static u64 translate_times(u32 n, u32 size) {
    u64 sum = 1;
    while (n--) {
        struct translated t = translate(text, size, image, sizeof image);
        if (t.number) return refused(t.number);
        sum = mixed(mixed(mixed(sum, t.number), t.line), t.length);
    }
    return mixed_bytes(sum, image, sizeof image);
}

static u64 check_times(u32 n) {
    u64 sum = 1;
    while (n--) {
        u8 number = check(image, sizeof image);
        if (number) return refused(number);
        sum = mixed(sum, number);
    }
    return mixed_bytes(sum, image, sizeof image);
}

static u64 list_times(u32 n) {
    u64 sum = 1;
    while (n--) {
        struct listed l = list(image, sizeof image, listing, sizeof listing);
        if (l.number) return refused(l.number);
        sum = mixed(mixed(sum, l.number), l.length);
    }
    return mixed_bytes(sum, listing, sizeof listing);
}

static u64 run_times(u32 n, u32 length, u32 event_bytes) {
    u64 sum = 1;
    while (n--) {
        struct ran r = run(image, length, events, event_bytes, TURNS, records, sizeof records);
        if (r.number) return refused(r.number);
        sum = mixed(mixed(mixed(mixed(mixed(sum, r.number), r.index), r.reason), r.turns), r.records);
        sum = mixed_state(sum, &r.state);
    }
    return mixed_bytes(sum, records, sizeof records);
}

static u64 compare_times(u32 n) {
    u64 sum = 1;
    for (u32 k = 0; k < RECORDS; k++) put_record(first + EVENT * k, k, 0), put_record(second + EVENT * k, k, 1);
    while (n--) {
        struct compared c = compare(first, sizeof first, second, sizeof second, entries, sizeof entries);
        if (c.number) return refused(c.number);
        sum = mixed(mixed(sum, c.number), c.entries);
    }
    return mixed_bytes(sum, entries, sizeof entries);
}

static int same(const char *a, const char *b) {
    while (*a && *a == *b) a++, b++;
    return *a == *b;
}

/* The sum of so many calls on the image of a text, which is made once before. */
static u64 on_image(const char *call, u32 n) {
    int other = same(call, "calls");
    struct translated t = translate(other ? (const u8 *)calls : text, other ? sizeof calls - 1 : TEXT, image, sizeof image);
    if (t.number) return refused(t.number);
    if (same(call, "check")) return check_times(n);
    if (same(call, "list")) return list_times(n);
    return run_times(n, t.length, other ? 0 : sizeof events);
}

int main(int count, char **words) {
    static const char usage[] = "usage: speed translate|half|quarter|check|list|run|calls|compare N\n";
    char line[24];
    u32 n = 0, at = sizeof line;
    u64 sum;
    u8 *end = text;
    for (u32 b = 0; b < BLOCKS; b++) end = put_block(end, b);
    for (u32 k = 0; k < TURNS; k++) put_event(events + EVENT * k, k);
    const char *digit = count == 3 ? words[2] : "";
    int good = *digit != 0;
    for (; '0' <= *digit && *digit <= '9' && n < 100000000; digit++) n = n * 10 + (*digit - '0');
    good &= *digit == 0;
    if (good && same(words[1], "translate")) sum = translate_times(n, put_late(BLOCKS));
    else if (good && same(words[1], "half")) sum = translate_times(n, put_late(BLOCKS / 2));
    else if (good && same(words[1], "quarter")) sum = translate_times(n, put_late(BLOCKS / 4));
    else if (good && same(words[1], "compare")) sum = compare_times(n);
    else if (good && (same(words[1], "check") || same(words[1], "list") || same(words[1], "run") || same(words[1], "calls")))
        sum = on_image(words[1], n);
    else { write(2, usage, sizeof usage - 1); return 0; }
    if (MODULUS <= sum) write(1, "refused ", 8);
    sum %= MODULUS;
    line[--at] = '\n';
    do line[--at] = '0' + sum % 10; while (sum /= 10);
    write(1, line + at, sizeof line - at);
    return 0;
}
