// What `bench/answer` compares with: a bare loop that does the work of `fwupd answer` for the requests of its input, Get Endpoint
// ID, Get Endpoint UUID and GetTID. It reads lines, decodes their digits, tests the header, builds the answer and prints its digits.
#include <stdio.h>
#include <string.h>

static int digit(int c) {
    if (c >= '0' && c <= '9') return c - '0';
    if (c >= 'A' && c <= 'F') return c - 'A' + 10;
    if (c >= 'a' && c <= 'f') return c - 'a' + 10;
    return -1;
}

static const char *control(const unsigned char *in, size_t size, unsigned char *out, size_t *out_size) {
    if (size != 7 || (in[5] & 0x80) == 0) return "Message";
    unsigned char made[] = {1, in[2], 9, 0xC0 | (in[3] & 7), 0, in[5] & 0x1F, in[6], 0, 9, 1, 0};
    if (in[6] == 2) {
        *out_size = 11;
    } else if (in[6] == 3) {
        memset(out + 8, 0, 16);
        *out_size = 24;
    } else {
        return "Message";
    }
    memcpy(out, made, in[6] == 2 ? 11 : 8);
    return NULL;
}

static const char *pldm(const unsigned char *in, size_t size, unsigned char *out, size_t *out_size) {
    if (size != 8 || (in[5] & 0x80) == 0 || in[6] != 0 || in[7] != 2) return "Message";
    unsigned char made[] = {1, in[2], 9, 0xC0 | (in[3] & 7), 1, in[5] & 0x1F, 0, 2, 0, 0};
    memcpy(out, made, sizeof made);
    *out_size = sizeof made;
    return NULL;
}

static const char *answer(const char *line, size_t size, unsigned char *out, size_t *out_size) {
    unsigned char in[2048];
    if (size % 2 != 0) return "Hex";
    for (size_t i = 0; i < size / 2; i++) {
        int high = digit(line[2 * i]), low = digit(line[2 * i + 1]);
        if (high < 0 || low < 0) return "Hex";
        in[i] = high * 16 + low;
    }
    size /= 2;
    if (size < 4) return "Short";
    if (in[0] % 16 != 1) return "Version";
    if (size == 4) return "Empty";
    if (size > 68) return "TooLong";
    if (in[1] != 9) return "Destination";
    if ((in[3] & 0xC0) != 0xC0) return "NotWhole";
    if ((in[3] & 0x30) != 0) return "StartNumber";
    if ((in[3] & 0x08) == 0) return "NotRequest";
    if (in[4] == 0) return control(in, size, out, out_size);
    if (in[4] == 1) return pldm(in, size, out, out_size);
    return "Type";
}

int main(void) {
    static const char DIGITS[] = "0123456789ABCDEF";
    char line[4096], text[256];
    while (fgets(line, sizeof line, stdin)) {
        unsigned char out[68];
        size_t out_size = 0;
        const char *cause = answer(line, strcspn(line, "\n"), out, &out_size);
        if (cause) {
            fprintf(stdout, "drop %s\n", cause);
            continue;
        }
        for (size_t i = 0; i < out_size; i++) {
            text[2 * i] = DIGITS[out[i] >> 4];
            text[2 * i + 1] = DIGITS[out[i] & 15];
        }
        text[2 * out_size] = '\n';
        fwrite(text, 1, 2 * out_size + 1, stdout);
    }
    return 0;
}
