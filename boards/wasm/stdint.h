/* The types that the conformity kit takes from stdint.h, for the kit's compiler, which brings no headers for WebAssembly. */
#ifndef STDINT_H
#define STDINT_H
typedef unsigned char uint8_t;
typedef unsigned short uint16_t;
typedef unsigned int uint32_t;
typedef int int32_t;
typedef unsigned long long uint64_t;
typedef long long int64_t;
typedef unsigned long uintptr_t;
#define UINT64_MAX 18446744073709551615u
#endif
