/* Texts that are composed piece by piece, the words of a line, and the lines for the endpoint. Words are separated as
 * the library separates them: by spaces and tabs. One carriage return at the end of a line belongs to no word. */
#include "text.h"
#include <stdarg.h>

void text_add(struct text *t, const char *form, ...) {
    va_list arguments;
    int length;
    va_start(arguments, form);
    length = vsnprintf(t->octets + t->length, t->room - t->length, form, arguments);
    va_end(arguments);
    if (length < 0 || (size_t)length >= t->room - t->length)
        t->full = true;
    else
        t->length += (size_t)length;
}

void words_split(struct words *w, const char *line, size_t length) {
    size_t begin = 0;
    w->count = 0;
    if (length > 0 && line[length - 1] == '\r')
        length--;
    for (size_t i = 0; i <= length && w->count <= WORDS; i++) {
        if (i < length && line[i] != ' ' && line[i] != '\t')
            continue;
        if (i > begin && w->count++ < WORDS) {
            w->at[w->count - 1] = line + begin;
            w->length[w->count - 1] = i - begin;
        }
        begin = i + 1;
    }
}

bool words_is(const struct words *w, unsigned index, const char *text) {
    return index < w->count && index < WORDS && w->length[index] == strlen(text) &&
           memcmp(w->at[index], text, w->length[index]) == 0;
}

bool words_are(const struct words *w, unsigned index, const char *text) {
    struct words those;
    words_split(&those, text, strlen(text));
    if (w->count > WORDS || w->count != index + those.count)
        return false;
    for (unsigned i = 0; i < those.count; i++)
        if (w->length[index + i] != those.length[i] || memcmp(w->at[index + i], those.at[i], those.length[i]) != 0)
            return false;
    return true;
}

bool words_copy(const struct words *w, unsigned index, char *to, size_t room) {
    if (index >= w->count || index >= WORDS || w->length[index] >= room)
        return false;
    memset(to, 0, room);
    memcpy(to, w->at[index], w->length[index]);
    return true;
}

bool words_number(const struct words *w, unsigned index, uint64_t *number) {
    *number = 0;
    if (index >= w->count || index >= WORDS)
        return false;
    for (size_t i = 0; i < w->length[index]; i++) {
        unsigned digit = (unsigned)((unsigned char)w->at[index][i] - '0');
        if (digit > 9)
            return false;
        *number = *number > (UINT64_MAX - digit) / 10 ? UINT64_MAX : 10 * *number + digit;
    }
    return true;
}

bool commands_next(struct commands *c) {
    const char *feed = c->left == 0 ? NULL : memchr(c->text, '\n', c->left);
    macsec_clear_command(&c->command);
    if (c->left == 0)
        return false;
    c->line = c->text;
    c->length = feed == NULL ? c->left : (size_t)(feed - c->text);
    c->text += c->length + (feed != NULL);
    c->left -= c->length + (feed != NULL);
    c->number++;
    c->status = macsec_parse_line((const uint8_t *)c->line, c->length, &c->command);
    return true;
}

bool commands_skips(const struct commands *c) {
    return c->status == MACSEC_OK && c->command.kind == MACSEC_COMMAND_NONE;
}

uint32_t commands_end(struct commands *c, macsec_config *end) {
    while (commands_next(c)) {
        if (commands_skips(c))
            continue;
        macsec_clear_command(&c->command);
        return c->status == MACSEC_E_MEMORY ? c->status : macsec_parse_end((const uint8_t *)c->line, c->length, end);
    }
    return MACSEC_E_EMPTY;
}
