/* For the kit's clang, which comes without headers: what osnma.h and the tests use. */
typedef __SIZE_TYPE__ size_t;
#ifndef __cplusplus
#define NULL ((void *)0)
#endif
