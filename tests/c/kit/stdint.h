/* For the kit's clang, which comes without headers: what osnma.h and the tests use. */
typedef __UINT8_TYPE__ uint8_t;
typedef __UINT32_TYPE__ uint32_t;
typedef __UINT64_TYPE__ uint64_t;
typedef __UINTPTR_TYPE__ uintptr_t;
#define UINT64_C(number) number##ul
#define UINT64_MAX __UINT64_MAX__
