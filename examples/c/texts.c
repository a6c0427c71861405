/* The example of the text form: its script is translated with its names and the words are printed back; then in too little
   room, and with a name less. */
#include <stdio.h>
#include <stdlib.h>
#include <string.h>

#include "kernel.h"

enum { MOST_WORDS = 16, MOST_BYTES = 16 * MOST_WORDS };

static const char names[] = "size = 4\n"
                            "last = size * (2 + 3) - 1\n";

static const char names_without_size[] = "last = size * (2 + 3) - 1\n";

static const char script[] = "loop: input\n"
                             "      store r3 r4\n"
                             "      load r5 last\n"
                             "      compare r3 r5\n"
                             "      jumplt loop       ; back to the input\n"
                             "table: size\n"
                             "      loop + 2\n";

/* The bytes of a text, as the library is lent them. */
static const uint8_t *bytes(const char *text)
{
    return (const uint8_t *)text;
}

/* Prints the number of a refusal, and the line that is refused with so much room. */
static void print_refused(const char *with, struct kernel_translated told, size_t room)
{
    struct kernel_line line = kernel_refused_line(bytes(with), strlen(with), bytes(script), strlen(script), room);
    const char *text = told.text == KERNEL_NAMES ? with : script;
    printf("refused %u: %.*s\n", told.number, (int)line.bytes, text + line.start);
}

/* Prints words back as text. */
static void print_back(const uint16_t *words, size_t count)
{
    uint8_t text[MOST_BYTES];
    struct kernel_printed told = kernel_print(words, count, text, MOST_BYTES);
    if (told.number != KERNEL_NOT_REFUSED)
        printf("refused %u\n", told.number);
    else
        printf("%.*s", (int)told.bytes, (const char *)text);
}

/* Translates the script with some names to at most so many words, and prints them and their text, or what is refused. */
static void print_translated(const char *with, size_t room)
{
    uint16_t target[MOST_WORDS];
    struct kernel_translated told =
        kernel_translate(bytes(with), strlen(with), bytes(script), strlen(script), target, room);
    if (told.number != KERNEL_NOT_REFUSED) {
        print_refused(with, told, room);
        return;
    }
    for (size_t k = 0; k < told.words; k++)
        printf("%u\n", target[k]);
    print_back(target, told.words);
}

int main(void)
{
    print_translated(names, MOST_WORDS);
    print_translated(names, 8);
    print_translated(names_without_size, MOST_WORDS);
    return EXIT_SUCCESS;
}
