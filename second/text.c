#include "text.h"

#include "must.h"
#include "random.h"

#include <stdio.h>
#include <string.h>

void add_bytes(struct text *text, const void *bytes, int count)
{
    must(count <= MOST_TEXT - text->count, "there is room for the text");
    memcpy(&text->bytes[text->count], bytes, (size_t)count);
    text->count += count;
}

void add_string(struct text *text, const char *string)
{
    add_bytes(text, string, (int)strlen(string));
}

void add_text(struct text *text, const struct text *other)
{
    add_bytes(text, other->bytes, other->count);
}

void add_repeated(struct text *text, const struct text *other, int count)
{
    for (int left = count; left > 0;) {
        int part = left < other->count ? left : other->count;
        add_bytes(text, other->bytes, part);
        left -= part;
    }
}

void add_trailer(struct text *text, int counted)
{
    char trailer[32];
    snprintf(trailer, sizeof trailer, "back %05d\n", counted);
    add_string(text, trailer);
}

void add_random_bytes(struct text *text, int count)
{
    for (int i = 0; i < count; i++) {
        unsigned char byte = (unsigned char)random_below(256);
        add_bytes(text, &byte, 1);
    }
}

void add_sheet_bytes(struct text *text, int count)
{
    static const char common[] = "toiwndacrsugef0123456789-==\n\n\nback ";
    for (int i = 0; i < count; i++)
        add_bytes(text, &common[random_below((int)sizeof common - 1)], 1);
}
