/* Rows as XML in plain C, for the benchmark xml: escapes by a table of 256 entries, byte by byte, and checks nothing. Floats as their bits. */
#include <stdint.h>
#include <string.h>

static uint8_t lengths[256];
static const char *escapes[256];

void plain_start(void) {
    static const struct { char of; const char *is; } five[] = {
        {'<', "&lt;"}, {'>', "&gt;"}, {'&', "&amp;"}, {'"', "&quot;"}, {'\'', "&apos;"}};
    for (int i = 0; i < 256; i++)
        lengths[i] = 1;
    for (int i = 0; i < 5; i++) {
        lengths[(uint8_t)five[i].of] = (uint8_t)strlen(five[i].is);
        escapes[(uint8_t)five[i].of] = five[i].is;
    }
}

static uint8_t *put(uint8_t *to, const void *from, size_t length) {
    memcpy(to, from, length);
    return to + length;
}

static uint8_t *put_string(uint8_t *to, const char *from) {
    return put(to, from, strlen(from));
}

static uint8_t *put_escaped(uint8_t *to, const uint8_t *from, size_t length) {
    for (size_t i = 0; i < length; i++) {
        uint8_t byte = from[i];
        if (lengths[byte] == 1)
            *to++ = byte;
        else
            to = put(to, escapes[byte], lengths[byte]);
    }
    return to;
}

static uint8_t *put_number(uint8_t *to, uint64_t n, unsigned base, unsigned least) {
    char digits[20];
    unsigned start = 20;
    for (; n > 0 || 20 - start < least; n /= base)
        digits[--start] = "0123456789abcdef"[n % base];
    return put(to, digits + start, 20 - start);
}

static uint8_t *put_signed(uint8_t *to, int64_t n, unsigned base) {
    if (n < 0)
        *to++ = '-';
    return put_number(to, n < 0 ? 0 - (uint64_t)n : (uint64_t)n, base, 1);
}

static uint8_t *put_base64(uint8_t *to, const uint8_t *from, size_t length) {
    static const char digits[] = "ABCDEFGHIJKLMNOPQRSTUVWXYZabcdefghijklmnopqrstuvwxyz0123456789+/";
    for (size_t i = 0; i < length; i += 3) {
        size_t rest = length - i;
        uint32_t bits = (uint32_t)from[i] << 16 | (rest > 1 ? (uint32_t)from[i + 1] << 8 : 0) | (rest > 2 ? from[i + 2] : 0);
        *to++ = digits[bits >> 18];
        *to++ = digits[bits >> 12 & 63];
        *to++ = rest > 1 ? digits[bits >> 6 & 63] : '=';
        *to++ = rest > 2 ? digits[bits & 63] : '=';
    }
    return to;
}

static uint8_t *put_value(uint8_t *to, const uint8_t *store, const uint32_t *row) {
    const uint8_t *bytes = store + row[6];
    size_t length = row[7];
    uint64_t pair = (uint64_t)row[6] << 32 | row[7];
    switch (row[4]) {
    case 2: return put_escaped(to, bytes, length);
    case 4:
        for (size_t i = 0; i < length; i++)
            to = put_number(to, bytes[i], 16, 2);
        return to;
    case 5: return put_base64(to, bytes, length);
    case 6: return put_signed(to, (int32_t)row[7], 10);
    case 7: return put_signed(to, (int32_t)row[7], 16);
    case 8: return put_signed(to, (int64_t)pair, 10);
    case 9: return put_signed(to, (int64_t)pair, 16);
    case 10: return put_number(to, row[7], 16, 8);
    case 11: return put_number(to, pair, 16, 16);
    case 12: return put_string(to, "true");
    case 13: return put_string(to, "false");
    default: return to;
    }
}

static uint8_t *put_between(uint8_t *to, const char *before, const uint8_t *bytes, size_t length, const char *after) {
    return put_string(put(put_string(to, before), bytes, length), after);
}

/* The bytes of text. All spans lie in one store. */
size_t plain_xml(const uint8_t *store, const uint32_t *rows, size_t count, uint8_t *output) {
    uint8_t *to = output;
    for (size_t i = 0; i < count; i++) {
        const uint32_t *row = rows + 8 * i;
        const uint8_t *name = store + row[2], *bytes = store + row[6];
        switch (row[0]) {
        case 2: to = put_between(to, "<", name, row[3], ""); break;
        case 3: to = put_between(to, "</", name, row[3], ">"); break;
        case 4: to = put_escaped(to, bytes, row[7]); break;
        case 5: to = put_between(to, "<![CDATA[", bytes, row[7], "]]>"); break;
        case 6: to = put_between(to, "&", bytes, row[7], ";"); break;
        case 7: to = put(to, bytes, row[7]); break;
        case 8: to = put_between(to, "<?", bytes, row[7], "?>"); break;
        case 9: to = put_between(to, "<!--", bytes, row[7], "-->"); break;
        case 10: to = put_between(to, "<!DOCTYPE ", bytes, row[7], ">"); break;
        case 15:
            to = put_between(to, " ", name, row[3], "=\"");
            to = put_string(put_value(to, store, row), "\"");
            break;
        default: break;
        }
        if ((row[0] == 2 || row[0] == 15) && (i + 1 == count || row[8] != 15))
            *to++ = '>';
    }
    return (size_t)(to - output);
}
