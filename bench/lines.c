/* Writes what `zf show` writes for x : X and y : Y with no predicate, by one write(2) a line.
   usage: lines SET SIZE SET SIZE */
#include <stdio.h>
#include <stdlib.h>
#include <string.h>
#include <unistd.h>

#define NAME_MAX_LEN 64
#define LINE_MAX_LEN 256

static char *put_text(char *at, const char *text)
{
    size_t len = strlen(text);
    memcpy(at, text, len);
    return at + len;
}

static char *put_number(char *at, unsigned long number)
{
    char digits[20];
    size_t len = 0;
    do {
        digits[len++] = (char)('0' + number % 10);
        number /= 10;
    } while (number > 0);
    while (len > 0)
        *at++ = digits[--len];
    return at;
}

static char *put_component(char *at, const char *name, const char *set, unsigned long element)
{
    at = put_text(at, name);
    at = put_text(at, " == ");
    at = put_text(at, set);
    at = put_text(at, ".");
    return put_number(at, element);
}

static void write_line(const char *line, size_t len)
{
    if (write(STDOUT_FILENO, line, len) != (ssize_t)len)
        exit(5);
}

static unsigned long size_in(const char *word)
{
    char *rest;
    unsigned long size = strtoul(word, &rest, 10);
    if (*word == '\0' || *rest != '\0')
        exit(2);
    return size;
}

int main(int count, char **words)
{
    if (count != 5 || strlen(words[1]) > NAME_MAX_LEN || strlen(words[3]) > NAME_MAX_LEN)
        return 2;
    unsigned long x_size = size_in(words[2]), y_size = size_in(words[4]);
    char line[LINE_MAX_LEN];
    for (unsigned long x = 1; x <= x_size; x++)
        for (unsigned long y = 1; y <= y_size; y++) {
            char *at = put_component(line, "x", words[1], x);
            at = put_text(at, ", ");
            at = put_component(at, "y", words[3], y);
            at = put_text(at, "\n");
            write_line(line, (size_t)(at - line));
        }
    write_line("end\n", 4);
    return 0;
}
