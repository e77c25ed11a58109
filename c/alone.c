/* What a program for Linux needs if it is linked without a C library: its start and end, one octet put out, and the functions on memory that compilers call.
   For WebAssembly the host puts out and starts `main`. */
#include <stddef.h>

int main(void);
int putchar(int c);
void *memcpy(void *to, const void *from, size_t n);
void *memmove(void *to, const void *from, size_t n);
void *memset(void *to, int octet, size_t n);
int memcmp(const void *a, const void *b, size_t n);

/* The system is called with a number and up to three words. */
#if defined __x86_64__
enum { WRITE = 1, EXIT_GROUP = 231 };
__asm__(".globl _start\n_start: xor %ebp, %ebp\n call alone\n");
static long asked(long number, long a, long b, long c) {
    long r;
    __asm__ volatile("syscall" : "=a"(r) : "a"(number), "D"(a), "S"(b), "d"(c) : "rcx", "r11", "memory");
    return r;
}
#elif defined __aarch64__
enum { WRITE = 64, EXIT_GROUP = 94 };
__asm__(".globl _start\n_start: bl alone\n");
static long asked(long number, long a, long b, long c) {
    register long n __asm__("x8") = number;
    register long r __asm__("x0") = a;
    register long s __asm__("x1") = b;
    register long t __asm__("x2") = c;
    __asm__ volatile("svc 0" : "+r"(r) : "r"(n), "r"(s), "r"(t) : "memory");
    return r;
}
#elif defined __arm__
enum { WRITE = 4, EXIT_GROUP = 248 };
__asm__(".globl _start\n.thumb_func\n_start: bl alone\n");
static long asked(long number, long a, long b, long c) {
    register long n __asm__("r7") = number;
    register long r __asm__("r0") = a;
    register long s __asm__("r1") = b;
    register long t __asm__("r2") = c;
    __asm__ volatile("svc 0" : "+r"(r) : "r"(n), "r"(s), "r"(t) : "memory");
    return r;
}
#elif !defined __wasm__
#error "no start for this processor"
#endif

#if defined __wasm__
__attribute__((import_module("env"), import_name("put"))) void put(int c);
int putchar(int c) {
    put(c);
    return c;
}
#else
int putchar(int c) {
    char octet = (char)c;
    asked(WRITE, 1, (long)&octet, 1);
    return c;
}

void alone(void);
void alone(void) {
    asked(EXIT_GROUP, main(), 0, 0);
    for (;;) {
    }
}
#endif

void *memcpy(void *to, const void *from, size_t n) {
    char *t = to;
    const char *f = from;
    while (n--) *t++ = *f++;
    return to;
}

void *memmove(void *to, const void *from, size_t n) {
    char *t = to;
    const char *f = from;
    if (t < f) return memcpy(to, from, n);
    while (n--) t[n] = f[n];
    return to;
}

void *memset(void *to, int octet, size_t n) {
    char *t = to;
    while (n--) *t++ = (char)octet;
    return to;
}

int memcmp(const void *a, const void *b, size_t n) {
    const unsigned char *p = a, *q = b;
    for (; n && *p == *q; n--) p++, q++;
    return n ? *p - *q : 0;
}

#if defined __arm__
/* The names that the Arm run-time convention gives to the same functions. */
void __aeabi_memcpy(void *to, const void *from, size_t n) { memcpy(to, from, n); }
void __aeabi_memcpy4(void *to, const void *from, size_t n) { memcpy(to, from, n); }
void __aeabi_memcpy8(void *to, const void *from, size_t n) { memcpy(to, from, n); }
void __aeabi_memmove(void *to, const void *from, size_t n) { memmove(to, from, n); }
void __aeabi_memmove4(void *to, const void *from, size_t n) { memmove(to, from, n); }
void __aeabi_memset(void *to, size_t n, int octet) { memset(to, octet, n); }
void __aeabi_memclr(void *to, size_t n) { memset(to, 0, n); }
void __aeabi_memclr4(void *to, size_t n) { memset(to, 0, n); }
void __aeabi_memclr8(void *to, size_t n) { memset(to, 0, n); }
#endif
