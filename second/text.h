/* Bytes that are put together: the texts that sheets are read from, and what the programs read and print. */
#ifndef TEXT_H
#define TEXT_H

enum { MOST_TEXT = 8200 };

struct text {
    int count;
    unsigned char bytes[MOST_TEXT];
};

/* Each puts something behind the text. The program ends where there is no room for it. */
void add_bytes(struct text *text, const void *bytes, int count);
void add_string(struct text *text, const char *string);
void add_text(struct text *text, const struct text *other);

/* So many bytes of the other, again and again. */
void add_repeated(struct text *text, const struct text *other, int count);

/* A trailer that counts so many bytes. */
void add_trailer(struct text *text, int counted);

/* Random bytes: any, or such as sheets have. */
void add_random_bytes(struct text *text, int count);
void add_sheet_bytes(struct text *text, int count);

#endif
