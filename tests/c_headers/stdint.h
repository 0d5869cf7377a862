#ifndef STDINT_H
#define STDINT_H
typedef __UINT8_TYPE__ uint8_t;
typedef __INT64_TYPE__ int64_t;
typedef __UINT32_TYPE__ uint32_t;
#define UINT32_MAX __UINT32_MAX__
#define SIZE_MAX __SIZE_MAX__
#endif
