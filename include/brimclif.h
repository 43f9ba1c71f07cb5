/* Brimclif: index lists in the coordIndex layout, and the cut that makes each of them a surface.
 *
 * A list is of signed 32-bit entries; -1 ends a face. n is the vertex count. Faces and corners (the entries other than -1) are
 * numbered from 0; positions count all entries from 0. Every function takes any input and refuses what it can't use. A refusal
 * gives its code and place, 0 for every other number, and writes to no other buffer. Accepted: code 0 and place 0, and each
 * buffer is written only in the part needed, at its start; the part of work that is needed then holds 0.
 *
 * code  given exactly when                                            place
 *    1  more than 65,536 entries                                      0
 *    2  n above 65,536                                                0
 *    3  an entry below -1 or at least n                               position of the first in its face
 *    4  a face with fewer than 3 entries                              where the face starts
 *    5  an index twice in a face                                      first entry equal to an earlier one of its face
 *    6  new list buffer shorter than the list                         length needed
 *    7  map shorter than the corner count                             length needed
 *    8  class buffer shorter than n                                   length needed
 *    9  work shorter than four times the corner count                 length needed
 *   10  edge question with equal or out-of-range indices              0
 *   11  text not of the form                                          byte position
 *   12  number outside -2,147,483,648 to 2,147,483,647                first byte of the number
 *   13  more numbers than the lent list holds, or than 65,536         first byte of the first one too many
 *   15  text buffer shorter than the text                             length needed
 *
 * The codes are looked at in this order, each call passing over those that it has no use for; 3, 4 and 5 are decided at the first
 * faulty face, and 11, 12 and 13 at the leftmost fault. (14 is the program's: an input above 16,384 bytes.)
 *
 * Each pointer is aligned and not null, also where its length is 0. What is written in a call overlaps nothing else of that call.
 */
#ifndef BRIMCLIF_H
#define BRIMCLIF_H

#include <stddef.h>
#include <stdint.h>

#ifdef __cplusplus
extern "C" {
#endif

/* Whether the list is valid with n vertices: code, place, faces, corners.
 * Refused by 1 to 5. */
void brimclif_check(const int32_t *list, size_t len, uint64_t n, uint64_t answer[4]);

/* How many faces lie on the edge between a and b, 0 where it is no edge: code, place, faces.
 * Refused by 1 to 5 and 10. */
void brimclif_edge(const int32_t *list, size_t len, uint64_t n, int32_t a, int32_t b, uint64_t answer[3]);

/* The class of each vertex, a byte each, 0 standalone, 1 inner, 2 at a boundary, 3 at a singular edge, 4 of several fans: code, place.
 * Refused by 1 to 5, 8 and 9. */
void brimclif_classes(const int32_t *list, size_t len, uint64_t n, uint8_t *classes, size_t classes_len, uint32_t *work,
                      size_t work_len, uint64_t answer[2]);

/* The cut, a new list and a map: code, place, faces, corners, new vertices (the map's length), singular edges, singular vertices.
 * Refused by 1 to 7 and 9. */
void brimclif_cut(const int32_t *list, size_t len, uint64_t n, int32_t *new_list, size_t new_len, int32_t *map, size_t map_len,
                  uint32_t *work, size_t work_len, uint64_t answer[7]);

/* Reads a text, as `[0 1 2 -1]`, into the list: code, place, entries read.
 * Refused by 11 to 13. */
void brimclif_read(const uint8_t *text, size_t text_len, int32_t *list, size_t list_len, uint64_t answer[3]);

/* Writes the list as a text, as `[0, 1, 2, -1]`, with no 0 behind it: code, place, the text's length.
 * Refused by 1 and 15. */
void brimclif_write(const int32_t *list, size_t len, uint8_t *text, size_t text_len, uint64_t answer[3]);

/* Where face k of the list starts and ends, without its -1; 0 and 0 where there is no face k. A last empty run is no face.
 * It reads any entries and refuses nothing. */
void brimclif_face(const int32_t *list, size_t len, uint64_t k, uint64_t span[2]);

#ifdef __cplusplus
}
#endif

#endif
