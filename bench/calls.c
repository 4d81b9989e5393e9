// The C twin of calls: results into new memory, after the sizes tell that 64 bits are enough; exact sums at places.
#include <stdint.h>
#include <stdio.h>
#include <stdlib.h>
#include <string.h>
#include <time.h>
typedef int64_t i64; typedef uint64_t u64; typedef __int128 i128;
#define K __attribute__((noinline)) static
static u64 now(void){struct timespec t;clock_gettime(CLOCK_MONOTONIC,&t);return t.tv_sec*1000000000ull+t.tv_nsec;}
#define BENCH(name,n,e) for(int rep_=0;rep_<15;rep_++){u64 s_=now();u64 c_=(u64)(e);u64 t_=now()-s_;printf("%s %lld %llu %llu\n",name,(long long)(n),(unsigned long long)t_,(unsigned long long)c_);}
#define EACH(e) ({u64 z_=0;for(int i=0;i<200;i++){asm volatile(""::: "memory");z_+=(u64)(e);}z_;})
static i64* numbers(size_t n,u64 x,u64 below){i64*v=malloc(n*8);for(size_t i=0;i<n;i++){x^=x<<13;x^=x>>7;x^=x<<17;v[i]=(x>>11)%below;}return v;}
static u64 largest(const i64*a,size_t n){u64 m=0;for(size_t i=0;i<n;i++){u64 s=a[i]<0?-(u64)a[i]:a[i];if(s>m)m=s;}return m;}
static u64 size(i64 b){return b<0?-(u64)b:b;}
static int sums(u64 a,u64 b){return a<1ull<<62&&b<1ull<<62;}
static int products(u64 a,u64 b){u64 c;return !__builtin_mul_overflow(a,b,&c)&&c<1ull<<63;}
static u64 N[16],M[16],O[16];
#define NULLS2 for(int k=0;k<16;k++)O[k]=N[k]|M[k]
#define NULLS1 memcpy(O,N,sizeof O)
#define MADE u64 r=o[3];asm volatile(""::"r"(o):"memory");free(o);return r
K u64 k_add(const i64*a,const i64*b,size_t n){if(!sums(largest(a,n),largest(b,n)))return 0;NULLS2;i64*restrict o=malloc(n*8);for(size_t i=0;i<n;i++)o[i]=a[i]+b[i];MADE;}
K u64 k_add1(const i64*a,i64 b,size_t n){if(!sums(largest(a,n),size(b)))return 0;NULLS1;i64*restrict o=malloc(n*8);for(size_t i=0;i<n;i++)o[i]=a[i]+b;MADE;}
K u64 k_sub(const i64*a,const i64*b,size_t n){if(!sums(largest(a,n),largest(b,n)))return 0;NULLS2;i64*restrict o=malloc(n*8);for(size_t i=0;i<n;i++)o[i]=a[i]-b[i];MADE;}
K u64 k_mul(const i64*a,const i64*b,size_t n){if(!products(largest(a,n),largest(b,n)))return 0;NULLS2;i64*restrict o=malloc(n*8);for(size_t i=0;i<n;i++)o[i]=a[i]*b[i];MADE;}
K u64 k_mul1(const i64*a,i64 b,size_t n){if(!products(largest(a,n),size(b)))return 0;NULLS1;i64*restrict o=malloc(n*8);for(size_t i=0;i<n;i++)o[i]=a[i]*b;MADE;}
K u64 k_neg(const i64*a,size_t n){if(!sums(largest(a,n),0))return 0;NULLS1;i64*restrict o=malloc(n*8);for(size_t i=0;i<n;i++)o[i]=-a[i];MADE;}
K u64 k_mul1w(const i64*a,i64 b,size_t n){if(products(largest(a,n),size(b)))return 0;NULLS1;i128*restrict o=malloc(n*16);for(size_t i=0;i<n;i++)o[i]=(i128)a[i]*b;MADE;}
K u64 k_addw(const i128*a,const i128*b,size_t n){NULLS2;i128*restrict o=malloc(n*16);for(size_t i=0;i<n;i++)o[i]=a[i]+b[i];MADE;}
K u64 k_subw(const i128*a,const i128*b,size_t n){NULLS2;i128*restrict o=malloc(n*16);for(size_t i=0;i<n;i++)o[i]=a[i]-b[i];MADE;}
K u64 k_negw(const i128*a,size_t n){NULLS1;i128*restrict o=malloc(n*16);for(size_t i=0;i<n;i++)o[i]=-a[i];MADE;}
K i128 k_sum(const i64*x,const uint16_t*p,size_t n){i128 s=0;for(size_t i=0;i<n;i++)s+=x[p[i]];return s;}
// Exact, as sum_into is: a sum of 1,024 numbers of 128 bits may pass 128 bits.
K i128 k_sumw(const i128*x,const uint16_t*p,size_t n){unsigned __int128 low=0;i128 high=0;for(size_t i=0;i<n;i++){i128 v=x[p[i]];low+=(u64)v;high+=(i64)(v>>64);}return high^(i128)low;}
static uint16_t S[1024];static i128 P[1024],Q[1024];
#define HIDDEN(x) asm volatile("":"+r"(x)::"memory")
int main(void){
 void*read[]={N,M,O,P,Q,S};for(int i=0;i<6;i++)HIDDEN(read[i]);i64 seven=7,large=1ll<<62;HIDDEN(seven);HIDDEN(large);
 i64*a=numbers(1024,88172645463325252ull,1000),*b=numbers(1024,1234567,1000);size_t m=200*1024;
 for(int i=0;i<1024;i++){P[i]=(i128)a[i]<<60;Q[i]=(i128)b[i]<<60;S[i]=i;}
 BENCH("add",m,EACH(k_add(a,b,1024)));
 BENCH("add_constant",m,EACH(k_add1(a,seven,1024)));
 BENCH("sub",m,EACH(k_sub(a,b,1024)));
 BENCH("mul",m,EACH(k_mul(a,b,1024)));
 BENCH("mul_constant",m,EACH(k_mul1(a,seven,1024)));
 BENCH("neg",m,EACH(k_neg(a,1024)));
 BENCH("mul_constant_to_i128",m,EACH(k_mul1w(a,large,1024)));
 BENCH("add_i128",m,EACH(k_addw(P,Q,1024)));
 BENCH("sub_i128",m,EACH(k_subw(P,Q,1024)));
 BENCH("neg_i128",m,EACH(k_negw(P,1024)));
 BENCH("sum_into",m,EACH(k_sum(a,S,1024)));
 BENCH("sum_into_i128",m,EACH(k_sumw(P,S,1024)));
}
