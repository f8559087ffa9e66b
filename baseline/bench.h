/* The five calls in plain C, and their answers. */
typedef unsigned char u8;
typedef unsigned short u16;
typedef unsigned int u32;
typedef unsigned long long u64;
typedef int i32;
typedef long long i64;

struct translated { u8 number; u32 line, length; };

struct listed { u8 number; u32 length; };

struct compared { u8 number; u32 entries; };

/* A return place: the mark is 1 where the call of a handler kept it, with that handler's target. */
struct place { u16 cell, target; u8 mark; };

struct state {
    i32 variables[64];
    u16 next;
    struct place places[8];
    u8 kept;
    u16 handler;
    u32 hold;
    u8 motion;
    i32 value;
};

struct ran { u8 number; u32 index; u8 reason; u32 turns, records; struct state state; };

struct translated translate(const u8 *text, u32 size, u8 *image, u32 room);
u8 check(const u8 *image, u32 size);
struct listed list(const u8 *image, u32 size, u8 *text, u32 room);
struct compared compare(const u8 *first, u32 first_bytes, const u8 *second, u32 second_bytes, u8 *list, u32 room);
struct ran run(const u8 *image, u32 size, const u8 *events, u32 event_bytes, u32 budget, u8 *records, u32 room);
