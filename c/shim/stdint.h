/* The numbers of <stdint.h> that the header names, for a compiler that comes without a C library, as the toolchain's does. */
#ifndef SHIM_STDINT_H
#define SHIM_STDINT_H
typedef __UINT8_TYPE__ uint8_t;
typedef __UINT16_TYPE__ uint16_t;
typedef __UINT32_TYPE__ uint32_t;
typedef __UINT64_TYPE__ uint64_t;
#endif
