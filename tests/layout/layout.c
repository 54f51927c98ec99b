/* The layout of every public struct, asserted when this is compiled. */
#include "jespurla.h"

#define STRUCT(type, size, alignment)                          \
    _Static_assert(sizeof(type) == (size), "size of " #type);  \
    _Static_assert(_Alignof(type) == (alignment), "alignment of " #type);
#define FIELD(type, field, offset) \
    _Static_assert(offsetof(type, field) == (offset), "offset of " #field " in " #type);

#include "jespurla_layout.def"
