// What `bench/serial` compares with: a bare loop that does the work of `fwupd answer --serial` for Get Endpoint ID. It reads lines of
// digits, takes the frames out of their bytes (DSP0253), answers the packets, frames the answers and prints their digits. The check
// sequence is computed bit by bit, as the program computes it, or with a table of 256 (argument 'table').
#include <stdio.h>
#include <string.h>

static unsigned short table[256];
static int has_table;

static unsigned short bits(unsigned short check, int count) {
    while (count--) check = check & 1 ? check >> 1 ^ 0x8408 : check >> 1;
    return check;
}

static unsigned short after(unsigned short check, unsigned char byte) {
    return has_table ? check >> 8 ^ table[(check ^ byte) & 0xFF] : bits(check ^ byte, 8);
}

static unsigned short check_of(const unsigned char *packet, size_t size) {
    unsigned short check = after(after(0xFFFF, 1), size);
    for (size_t i = 0; i < size; i++) check = after(check, packet[i]);
    return check;
}

static int digit(int c) {
    if (c >= '0' && c <= '9') return c - '0';
    if (c >= 'A' && c <= 'F') return c - 'A' + 10;
    if (c >= 'a' && c <= 'f') return c - 'a' + 10;
    return -1;
}

static const char *answer(const unsigned char *in, size_t size, unsigned char *out) {
    if (size < 4) return "Short";
    if (in[0] % 16 != 1) return "Version";
    if (size == 4) return "Empty";
    if (in[1] != 9) return "Destination";
    if ((in[3] & 0xC0) != 0xC0) return "NotWhole";
    if ((in[3] & 0x30) != 0) return "StartNumber";
    if ((in[3] & 0x08) == 0) return "NotRequest";
    if (in[4] > 1) return "Type";
    if (size != 7 || in[4] != 0 || (in[5] & 0x80) == 0 || in[6] != 2) return "Message";
    unsigned char made[] = {1, in[2], 9, 0xC0 | (in[3] & 7), 0, in[5] & 0x1F, in[6], 0, 9, 1, 0};
    memcpy(out, made, sizeof made);
    return NULL;
}

static char *put(char *text, unsigned char byte) {
    static const char DIGITS[] = "0123456789ABCDEF";
    *text++ = DIGITS[byte >> 4];
    *text++ = DIGITS[byte & 15];
    return text;
}

static void print(const unsigned char *in, size_t size) {
    unsigned char out[11];
    char text[64], *end = text;
    const char *cause = answer(in, size, out);
    if (cause) {
        fprintf(stdout, "drop %s\n", cause);
        return;
    }
    unsigned short check = check_of(out, sizeof out);
    end = put(put(put(end, 0x7E), 1), sizeof out);
    for (size_t i = 0; i < sizeof out; i++) {
        if (out[i] == 0x7E || out[i] == 0x7D) {
            end = put(put(end, 0x7D), out[i] ^ 0x20);
        } else {
            end = put(end, out[i]);
        }
    }
    end = put(put(put(end, check >> 8), check & 0xFF), 0x7E);
    *end++ = '\n';
    fwrite(text, 1, end - text, stdout);
}

enum { LOST, OPENED, REVISED, DATA, ESCAPED, HIGH, LOW, CLOSING };
static int stage = LOST;
static unsigned char packet[68];
static size_t count, held;
static unsigned short got;

static void feed(unsigned char byte) {
    switch (stage) {
    case OPENED:
        stage = byte == 1 ? REVISED : byte == 0x7E ? OPENED : LOST;
        break;
    case REVISED:
        count = byte, held = 0;
        stage = byte >= 1 && byte <= 68 ? DATA : LOST;
        break;
    case ESCAPED:
        if (byte != 0x5D && byte != 0x5E) {
            stage = LOST;
            break;
        }
        packet[held++] = byte + 0x20;
        stage = held == count ? HIGH : DATA;
        break;
    case DATA:
        if (byte == 0x7D || byte == 0x7E) {
            stage = byte == 0x7D ? ESCAPED : OPENED;
            break;
        }
        packet[held++] = byte;
        stage = held == count ? HIGH : DATA;
        break;
    case HIGH:
        got = byte << 8, stage = LOW;
        break;
    case LOW:
        got |= byte, stage = CLOSING;
        break;
    case CLOSING:
        stage = LOST;
        if (byte == 0x7E && check_of(packet, count) == got) print(packet, count);
        break;
    default:
        stage = byte == 0x7E ? OPENED : LOST;
    }
}

int main(int count_of_words, char **words) {
    char line[4096];
    unsigned char in[2048];
    has_table = count_of_words > 1 && strcmp(words[1], "table") == 0;
    for (int i = 0; i < 256; i++) table[i] = bits(i, 8);
    while (fgets(line, sizeof line, stdin)) {
        size_t size = strcspn(line, "\n"), i = 0;
        while (i < size / 2) {
            int high = digit(line[2 * i]), low = digit(line[2 * i + 1]);
            if (high < 0 || low < 0) break;
            in[i++] = high * 16 + low;
        }
        if (size % 2 != 0 || i < size / 2) {
            fputs("drop Hex\n", stdout);
            continue;
        }
        for (i = 0; i < size / 2; i++) feed(in[i]);
    }
    return 0;
}
