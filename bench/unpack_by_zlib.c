/* Unpacks the members of a file by zlib, piece by piece, and prints how many there are and how many bytes they hold. */
#include <stdio.h>
#include <zlib.h>

int main(int count, char **words)
{
    static unsigned char input[1 << 17], text[1 << 17];
    unsigned long long members = 0, bytes = 0;
    z_stream stream = {0};
    FILE *file = count == 2 ? fopen(words[1], "rb") : NULL;

    if (!file || inflateInit2(&stream, 16 + MAX_WBITS) != Z_OK)
        return 2;
    for (;;) {
        if (stream.avail_in == 0) {
            stream.next_in = input;
            stream.avail_in = fread(input, 1, sizeof input, file);
            if (stream.avail_in == 0)
                break;
        }
        stream.next_out = text;
        stream.avail_out = sizeof text;
        int status = inflate(&stream, Z_NO_FLUSH);
        bytes += sizeof text - stream.avail_out;
        if (status == Z_STREAM_END) {
            members++;
            inflateReset(&stream);
        } else if (status != Z_OK && status != Z_BUF_ERROR) {
            return 1;
        }
    }
    printf("%llu members, %llu bytes\n", members, bytes);
    return 0;
}
