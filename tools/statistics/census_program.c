/* SPDX-License-Identifier: MIT OR Apache-2.0 */
/* A program for census_programs: calls, data, a switch, thread-local variables and weak
   symbols, each within the file and outside it. */
typedef struct node { struct node *next; long (*call)(long); const char *name; } node;

extern long outside(long), variadic(const char *, ...);
extern int data_outside, array_outside[];
extern const char text_outside[];
extern node list_outside;
extern _Thread_local int tls_outside;
extern __attribute__((weak)) long weak_call(long);
extern __attribute__((weak)) int weak_data;
extern __attribute__((visibility("hidden"))) int hidden_data;
extern __attribute__((visibility("hidden"))) _Thread_local int hidden_tls;

_Thread_local int tls_global = 3;
static _Thread_local int tls_static = 4;
static _Thread_local long tls_zero[8];
static int data_static = 1, zero_static[100];
int data_global = 2;
long double wide = 1.5L;
static double fraction = 0.25;
static short halves[16] __attribute__((aligned(16)));
static unsigned char bytes[64];

static __attribute__((noinline)) long inside(long x)
{
    return x * data_static + zero_static[x & 63];
}
__attribute__((noinline)) long global_call(long x) { return inside(x) + data_global; }

node list = {&list_outside, inside, "text"};
static node *const pointers[] = {&list, &list_outside, 0};
static long (*const calls[])(long) = {inside, outside, global_call};

long choose(int which, long x)
{
    switch (which) {
    case 0: return outside(x);
    case 1: return inside(x) - 1;
    case 2: return global_call(x + 7);
    case 3: return variadic("%ld %s", x, text_outside);
    case 4: return calls[x % 3](x);
    case 5: return pointers[x & 1]->call(x);
    case 6: return array_outside[x] + data_outside++;
    case 7: return weak_call ? weak_call(x) : 0;
    case 8: return weak_data + hidden_data + halves[x & 15] + bytes[x & 63];
    case 9: return (long)(fraction * x + wide);
    }
    return outside(x + 1);
}

int threads(long x)
{
    tls_zero[x & 7] += tls_static++;
    return tls_outside + tls_global++ + tls_static + hidden_tls + (int)tls_zero[2];
}

int *address_of_tls(int which) { return which ? &tls_outside : &tls_static; }
void *address(int which)
{
    if (which == 0)
        return &data_outside;
    return which == 1 ? (void *)outside : (void *)&zero_static[40];
}
void copy(node *to, const node *from) { *to = *from; }
/* loads and stores of each size, of data outside */
extern char c_outside;
extern short s_outside;
extern long l_outside;
extern float f_outside;
extern double d_outside;
extern long double q_outside;
extern __int128 i_outside;
void sizes(void)
{
    c_outside++; s_outside++; l_outside++; f_outside += 1; d_outside += 1;
    q_outside += 1; i_outside += 1;
}
