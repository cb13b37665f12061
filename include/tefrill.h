/* Tefrill's gateway: the fuel of one flight, out of a data book.
 * docs/GATEWAY.md says what each answer means. */
#ifndef TEFRILL_H
#define TEFRILL_H

#include <stddef.h>
#include <stdint.h>

#ifdef __cplusplus
extern "C" {
#endif

#define TEFRILL_DISTANCE 1u /* kilometres, 0 to 20,020 */
#define TEFRILL_TIME 2u     /* minutes, 0 to 1,500 */

/* The fuel of one flight in grams, 0 to 400,000,000, or minus the number of the first refusal:
 *   1 to 7  the book, checked first
 *   18      the type is not four bytes of a designator filled up with spaces, the kind is neither 1 nor 2,
 *           or the measure is out of its kind's range
 *   22      the book has no row of that type and kind
 *   23      the measure lies past the row's last fuel
 * Neither pointer may be null, also where its length is 0. Nothing is written and nothing is kept. */
int64_t tefrill_fuel(const uint8_t *book, size_t book_length, const uint8_t *type, size_t type_length,
                     uint32_t kind, uint32_t measure);

#ifdef __cplusplus
}
#endif

#endif
