/* What the programs that count have in common: marks around a call for the plugin, and the depth of its stack. A program prints the name of each case, or,
   with the word `stack`, how far below the caller's frame the call writes. PAINTED octets of the stack are looked at. */
static unsigned char *lowest;

__attribute__((noinline)) void mark_begin(void) { __asm__ volatile("" ::: "memory"); }
__attribute__((noinline)) void mark_end(void) { __asm__ volatile("" ::: "memory"); }

/* ---- the stack: painted before a call, looked at behind it */
__attribute__((noinline)) static void paint(void) {
    volatile unsigned char area[PAINTED];
    for (int i = 0; i < PAINTED; i++) area[i] = 0xA5;
    lowest = (unsigned char *)area;
}

__attribute__((noinline)) static size_t depth(void *top) {
    unsigned char *p = lowest;
    while (p < (unsigned char *)top && *p == 0xA5) p++;
    return (unsigned char *)top - p;
}

/* ---- a case */
static int stack;

static void run(const char *name, void (*call)(void)) {
    if (stack) {
        paint();
        call();
        printf("%zu\n", depth(__builtin_frame_address(0)));
    } else {
        mark_begin();
        call();
        mark_end();
        printf("%s\n", name);
    }
}

static void expect(int right) {
    if (right) return;
    fprintf(stderr, "cost: a call answered something else than it must\n");
    exit(1);
}
