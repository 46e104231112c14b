/* Images as Intel HEX: link libabi_hex.a, which `rt lib` in crates/abi_hex writes to its folder out/. */
#ifndef HOFNULDA_HEX_H
#define HOFNULDA_HEX_H

#include <stddef.h>
#include <stdint.h>

#ifdef __cplusplus
extern "C" {
#endif

/* Both functions take lent memory, a pointer and a length each. No pointer is null, also where the length is 0, and what is written (text,
   bytes, answer) overlaps nothing else that is lent. The answer is two words: 1 and a count, or 0 and the number of the refusal.
   A refused call writes nothing but the answer, and what lies past the count stays. Any input is taken. */

/* Writes the text of an image: data records of 16 bytes, the last of 1 to 16, and the end record, in capitals, each with LF.
   answer: 1 and the number of characters; or 0 and 1 to 8 (a bad image) or 25 (too few characters are lent). No image needs more than
   HOFNULDA_HEX_TEXT_MOST characters. */
void hofnulda_hex_write(
    const uint8_t *image, size_t image_length,
    uint8_t *text, size_t text_length,
    size_t answer[2]);

/* Reads the bytes that the records of a text say: either case of letters, data records of 1 to 16 bytes in ascending order from address 0
   without gaps, LF or CR LF after each, the last perhaps missing. The bytes need not be an image.
   answer: 1 and the number of bytes; or 0 and 27 (a malformed line, record type or length, an end record whose address is not 0, or text
   after the end record), 28 (a checksum), 29 (a gap, overlap, byte past address FFFF or missing end) or 25 (too few bytes are lent). No text
   needs more than HOFNULDA_HEX_BYTES_MOST bytes. */
void hofnulda_hex_read(
    const uint8_t *text, size_t text_length,
    uint8_t *bytes, size_t bytes_length,
    size_t answer[2]);

#define HOFNULDA_HEX_TEXT_MOST 11276
#define HOFNULDA_HEX_BYTES_MOST 65536

#ifdef __cplusplus
}
#endif

#endif
